// Times runs of a loop, of a function that calls itself and of a loop over memory.
import { spawnSync } from "node:child_process";
import { mkdtempSync, rmSync, writeFileSync } from "node:fs";
import { tmpdir } from "node:os";
import { moduleWith } from "../tests/peers/programs.mjs";
import { signed, unsigned } from "../tests/peers/spelling.mjs";

const cftt = process.argv[2];
const turns = Number(process.argv[3] ?? 100_000_000);
const folder = mkdtempSync(`${tmpdir()}/run-`);
const file = `${folder}/m.wasm`;
const hasWabt = spawnSync("wasm-interp", ["--version"]).status === 0;

// A module whose `main` takes a number and has this body, with a memory of one page; or one that exports a call of it with a number.
function module(locals, code) {
  const body = [...locals, ...code, 0x0b];
  return (called) => moduleWith([0x60, 0x01, 0x7e, 0x01, 0x7e], [[...unsigned(body.length), ...body]], [0x01, 0x00, 0x01], null, called);
}

// Counts local 0 down, and goes on with the loop around where it is not 0.
const again = [0x20, 0x00, 0x42, 0x01, 0x7d, 0x22, 0x00, 0x42, 0x00, 0x52, 0x0d, 0x00];

const loop = module([0x01, 0x01, 0x7e], [0x03, 0x40, 0x20, 0x01, 0x42, 0x03, 0x7e, 0x20, 0x00, 0x7c, 0x21, 0x01, ...again, 0x0b, 0x20, 0x01]);

const calls = module([0x00], [
  0x20, 0x00, 0x42, 0x02, 0x53, 0x04, 0x7e, 0x20, 0x00, 0x05,
  0x20, 0x00, 0x42, 0x01, 0x7d, 0x10, 0x00, 0x20, 0x00, 0x42, 0x02, 0x7d, 0x10, 0x00, 0x7c, 0x0b,
]);

const memory = module([0x01, 0x01, 0x7f], [
  0x03, 0x40, 0x20, 0x00, 0xa7, 0x41, ...signed(0xfff8n, 0, 5), 0x71, 0x22, 0x01, 0x20, 0x01, 0x29, 0x03, 0x00,
  0x20, 0x00, 0x7c, 0x37, 0x03, 0x00, ...again, 0x0b, 0x41, 0x00, 0x29, 0x03, 0x00,
]);

// Fibonacci's number whose calls are about as many as the turns.
function depth(count) {
  let [n, a, b] = [0, 1, 1];
  while (b < count) [n, a, b] = [n + 1, b, a + b + 1];
  return n;
}

function run(bytes, number, limit) {
  return spawnSync(cftt, ["run", "--limit", String(limit), String(number)], { input: bytes, encoding: "utf8" });
}

// The steps of the run: the least limit with which it ends.
function steps(bytes, number) {
  let [low, high] = [1, 2];
  while (run(bytes, number, high).status !== 0) [low, high] = [high, high * 2];
  while (low < high) {
    const middle = Math.floor((low + high) / 2);
    if (run(bytes, number, middle).status === 0) high = middle;
    else low = middle + 1;
  }
  return low;
}

function seconds(work) {
  const start = process.hrtime.bigint();
  const answer = work();
  return [Number(process.hrtime.bigint() - start) / 1e9, answer];
}

// For a loop the steps grow by the same number each turn; for the calls they follow the calls.
function stepsOf(name, bytes, number) {
  if (name !== "calls") {
    const [a, b] = [steps(bytes, 100), steps(bytes, 200)];
    return a + ((b - a) / 100) * (number - 100);
  }
  const known = [steps(bytes, 0), steps(bytes, 1), steps(bytes, 2)];
  // the steps of a number are those of the two below it and as many besides as those of 2 have
  const more = known[2] - known[1] - known[0];
  while (known.length <= number) known.push(known[known.length - 1] + known[known.length - 2] + more);
  return known[number];
}

for (const [name, make, number] of [["loop", loop, turns], ["calls", calls, depth(turns / 10)], ["memory", memory, turns]]) {
  const bytes = make(null);
  if (!WebAssembly.validate(bytes)) throw new Error(`${name} is not valid`);
  writeFileSync(file, make([number]));
  const count = stepsOf(name, bytes, number);
  const [own, answer] = seconds(() => run(bytes, number, 1e12));
  const wanted = new WebAssembly.Instance(new WebAssembly.Module(bytes)).exports.main;
  const [byNode, value] = seconds(() => wanted(BigInt(number)));
  if (answer.stdout !== `returned ${value}\n`) throw new Error(`${name}: ${answer.stdout}${answer.stderr}, and by node ${value}`);
  const told = [`${name} ${number}: ${count} steps`, `cftt ${own.toFixed(1)} s, ${(count / own / 1e6).toFixed(1)} million steps a second`];
  if (hasWabt) {
    const [wabt, run] = seconds(() => spawnSync("wasm-interp", [file, "--run-all-exports"], { encoding: "utf8" }));
    if (!run.stdout.trim().endsWith(`=> i64:${BigInt.asUintN(64, value)}`)) throw new Error(`${name}: ${run.stdout}${run.stderr}, and by node ${value}`);
    told.push(`wasm-interp ${wabt.toFixed(1)} s, ${(count / wabt / 1e6).toFixed(1)}`);
  }
  told.push(`node ${byNode.toFixed(2)} s`);
  console.log(told.join("; "));
}
rmSync(folder, { recursive: true });
