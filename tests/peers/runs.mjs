// Modules by number, run by `cftt run`, by node and, where it is there, by wabt.
import { spawnSync } from "node:child_process";
import { mkdtempSync, rmSync, writeFileSync } from "node:fs";
import { tmpdir } from "node:os";
import { programOf } from "./programs.mjs";
import { moduleOf, numbers } from "./spelling.mjs";

const top = process.argv[2];
const cftt = process.argv[3] ?? `${top}/cftt`;
const folder = mkdtempSync(`${tmpdir()}/runs-`);
const hasWabt = spawnSync("wasm-interp", ["--version"]).status === 0;

// The status word tells three ends by `unreachable` apart.
const unreachable = ["unreachable", "heap-full", "failed"];

// The line of a run by node.
function byNode(bytes, args) {
  const instance = new WebAssembly.Instance(new WebAssembly.Module(bytes));
  try {
    return `returned ${instance.exports.main(...args)}`;
  } catch (fault) {
    if (/divide by zero|remainder by zero/.test(fault.message)) return "trap divide-by-zero";
    if (/unrepresentable/.test(fault.message)) return "trap overflow";
    if (/out of bounds/.test(fault.message)) return "trap out-of-bounds";
    if (/unreachable/.test(fault.message)) return "trap unreachable";
    throw fault;
  }
}

// The line of a run by the program, with its status.
function byProgram(bytes, args) {
  const run = spawnSync(cftt, ["run", ...args.map(String)], { input: bytes, encoding: "utf8" });
  return { line: run.stdout.trimEnd(), status: run.status, told: run.stderr };
}

// Whether wabt's interpreter ends in the same way on a module that exports a function of no argument.
function agreesWithWabt(bytes, line) {
  writeFileSync(`${folder}/m.wasm`, bytes);
  const run = spawnSync("wasm-interp", [`${folder}/m.wasm`, "--run-all-exports"], { encoding: "utf8" });
  const got = `${run.stdout}${run.stderr}`.trim();
  if (line.startsWith("returned ")) return got.endsWith(`=> i64:${BigInt.asUintN(64, BigInt(line.slice(9)))}`);
  return got.includes("error");
}

let count = 0;
function expect(what, holds) {
  count += 1;
  if (!holds) {
    console.error(`peers: ${what}`);
    process.exit(1);
  }
}

const ends = {};
const values = [0n, 1n, -1n, 2n, -7n, 2n ** 31n, 2n ** 63n - 1n, -(2n ** 63n)];
for (let seed = 0; seed < 400; seed += 1) {
  const next = numbers(seed);
  const bytes = seed % 8 === 0 ? moduleOf(seed) : programOf(seed);
  expect(`module ${seed} is made wrongly`, WebAssembly.validate(bytes));
  const args = [values[next(values.length)], values[next(values.length)]];
  const wanted = byNode(bytes, args);
  const { line, status, told } = byProgram(bytes, args);
  const agrees = line === wanted || (wanted === "trap unreachable" && unreachable.some((word) => line === `trap ${word}`));
  expect(`module ${seed} on ${args}: ${line}${told}, and by node ${wanted}`, agrees && told === "");
  expect(`module ${seed}: ${line} with status ${status}`, status === (line.startsWith("trap") ? 3 : 0));
  if (hasWabt && seed % 8 !== 0) expect(`module ${seed} on ${args}: ${line}, and another end by wabt`, agreesWithWabt(programOf(seed, 3, args), line));
  const end = line.split(" ").slice(0, line.startsWith("trap") ? 2 : 1).join(" ");
  ends[end] = (ends[end] ?? 0) + 1;
}
rmSync(folder, { recursive: true });
const told = Object.entries(ends).map(([end, times]) => `${end} ${times}`).join(", ");
console.log(`peers: node${hasWabt ? " and wabt" : ""} agreed on runs, ${count} checks (${told})`);
