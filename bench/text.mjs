// Makes a source of 1 MiB with 4,096 declarations, and times whole processes on it; the time of a process on a short source is taken off.
import { execFileSync, spawnSync } from "node:child_process";
import { readFileSync, writeFileSync } from "node:fs";

const [program, lexer, room] = process.argv.slice(2);
const SIZE = 1 << 20;
const TURNS = 15;

// A source with so many declarations, each using the one before, filled up with blanks to just below the size.
function source(declarations) {
  const lines = ["explicit;"];
  for (let i = 0; i < declarations - 1; i++) {
    const before = i === 0 ? "~r" : `~(step${i - 1} n r)`;
    lines.push(`meta step${i} : Pi (n : Nat) -> Pi (x : ^(V Int)) -> ^(V Int) := \\(n : Nat). \\(x : ^(V Int)). natrec (\\(k : Nat). ^(V Int)) <1> (\\(k : Nat). \\(r : ^(V Int)). <let y : V Int := add ${before} ${i}; mul ~x (sub (mul y y) (div y ${i + 1}))>) (suc (suc n));`);
  }
  lines.push("main : V Int := 7;");
  return lines.join("\n") + "\n";
}

let declarations = 4096;
let text = source(declarations);
while (text.length >= SIZE) text = source(--declarations);
text += "-".repeat(2) + " ".repeat(Math.max(0, SIZE - text.length - 8)) + "\n";

// The best wall time of a run in seconds, and what it wrote to its error stream.
function best(input, words = ["build"]) {
  let least = Infinity;
  let told = "";
  for (let i = 0; i < TURNS; i++) {
    const begin = process.hrtime.bigint();
    const run = spawnSync(program, words, { input, maxBuffer: 4 * SIZE });
    least = Math.min(least, Number(process.hrtime.bigint() - begin) / 1e9);
    told = run.stderr.toString().trim();
  }
  return { least, told };
}

const start = best(Buffer.from("main")).least;
function row(what, input, words) {
  const { least, told } = best(Buffer.from(input), words);
  const seconds = Math.max(least - start, 1e-6);
  console.log(`${what.padEnd(34)} ${(input.length / seconds / 1e6).toFixed(1).padStart(8)} MB/s   ${(seconds * 1e3).toFixed(1)} ms   ${told}`);
}

writeFileSync(`${room}/source.cftt`, text);
console.log(`${text.length} bytes, ${declarations} declarations; the best of ${TURNS} runs, less the start of a process (${(start * 1e3).toFixed(1)} ms)`);
row("tokens (a bad character at the end)", text + "%");
row("tokens, grammar (`;` at the end)", text + ";");
row("tokens, grammar, trees (a program)", text);
row("`core`: names and printed form too", text, ["core"]);
const [nanoseconds, tokens] = execFileSync(lexer, [String(TURNS)], { input: readFileSync(`${room}/source.cftt`) }).toString().split(" ").map(Number);
console.log(`${"a plain lexer in C, within its process".padEnd(34)} ${((text.length / nanoseconds) * 1e3).toFixed(1).padStart(4)} MB/s   ${(nanoseconds / 1e6).toFixed(1)} ms   ${tokens} tokens`);
