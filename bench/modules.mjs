import { execFileSync, spawnSync } from "node:child_process";
import { mkdtempSync, rmSync, writeFileSync } from "node:fs";
import { tmpdir } from "node:os";
import { moduleOf } from "../tests/peers/spelling.mjs";

const program = process.argv[2];
const folder = mkdtempSync(`${tmpdir()}/bench-`);
const file = `${folder}/module.wasm`;

// A module of about 8 MiB.
let functions = 2000;
let module = moduleOf(1, functions, 40);
while (module.length < 8 << 20) {
  functions = Math.ceil((functions * 1.02 * (8 << 20)) / module.length);
  module = moduleOf(1, functions, 40);
}
writeFileSync(file, module);
console.log(`${module.length} bytes, ${functions} functions`);

function rate(what, nanoseconds) {
  console.log(`${what}: ${(module.length / 1e6 / (nanoseconds / 1e9)).toFixed(1)} MB/s`);
}

// The least of five runs.
function least(run) {
  return Math.min(...Array.from({ length: 5 }, run));
}

const times = Array.from({ length: 5 }, () => {
  const text = execFileSync(program, ["times"], { input: module, encoding: "utf8" });
  return text.match(/read (\d+) ns, validated (\d+) ns, read and written (\d+) ns/).slice(1).map(Number);
});
const read = Math.min(...times.map(([read]) => read));
const both = Math.min(...times.map(([, , both]) => both));
rate("decode", read);
rate("validate", Math.min(...times.map(([, validated]) => validated)));
rate("decode and validate", Math.min(...times.map(([read, validated]) => read + validated)));
rate("encode", Math.max(1, both - read));

function process_time(command, args) {
  return least(() => {
    const start = globalThis.process.hrtime.bigint();
    spawnSync(command, args, { stdio: "ignore" });
    return Number(globalThis.process.hrtime.bigint() - start);
  });
}
if (spawnSync("wasm-validate", ["--version"]).status === 0) {
  rate("wabt, wasm-validate (process)", process_time("wasm-validate", [file]));
  rate("wabt, wasm2wat (process)", process_time("wasm2wat", [file, "-o", "/dev/null"]));
}
rate("node, WebAssembly.validate", least(() => {
  const start = globalThis.process.hrtime.bigint();
  WebAssembly.validate(module);
  return Number(globalThis.process.hrtime.bigint() - start);
}));
rmSync(folder, { recursive: true });
