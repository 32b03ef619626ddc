// Times whole processes of cf_normalise and of the plain normaliser on the same call; the time of a call of few steps is taken off.
import { spawnSync } from "node:child_process";

const [program, plain] = process.argv.slice(2);
const levels = Number(process.argv[4] ?? 5);
const STEPS = 1_000_000_000;
const TURNS = 7;

function run(command, levels) {
  const begin = process.hrtime.bigint();
  const { status, stdout, stderr } = spawnSync(command, [String(levels)], { encoding: "utf8" });
  const seconds = Number(process.hrtime.bigint() - begin) / 1e9;
  if (status !== 0) throw new Error(`${command} ${levels}: status ${status} ${stderr}`);
  return { seconds, line: stdout };
}

// The least time of a run of each program, in turns, and the line that all of these runs wrote.
function least(levels) {
  const lines = new Set();
  const seconds = [Infinity, Infinity];
  for (let turn = 0; turn < TURNS; turn++) {
    [program, plain].forEach((command, i) => {
      const one = run(command, levels);
      seconds[i] = Math.min(seconds[i], one.seconds);
      lines.add(one.line);
    });
  }
  if (lines.size !== 1) throw new Error(`lines differ: ${[...lines].join(" ")}`);
  return { seconds, line: [...lines][0] };
}

const start = least(0);
const whole = least(levels);
const steps = STEPS - Number(whole.line.match(/^(\d+) steps are left\n$/)[1]);
const seconds = whole.seconds.map((s, i) => Math.max(s - start.seconds[i], 1e-6));
console.log(`${levels} levels: ${16 ** levels} calls, ${steps} steps; the best of ${TURNS} runs, less the start of a process`);
["cf_normalise", "plain Rust"].forEach((name, i) => {
  console.log(`${name.padEnd(14)} ${(steps / seconds[i] / 1e6).toFixed(1).padStart(6)} million steps/s   ${(seconds[i] * 1e3).toFixed(1)} ms`);
});
console.log(`cf_normalise takes ${(seconds[0] / seconds[1]).toFixed(2)} times as long`);
