// Modules by number, written again by the program, and compared with the originals by node and by wabt.
import { execFileSync, spawnSync } from "node:child_process";
import { mkdtempSync, rmSync, writeFileSync } from "node:fs";
import { tmpdir } from "node:os";
import { moduleOf } from "./spelling.mjs";

const top = process.argv[2];
const rewrite = `${top}/crates/wb_rewrite/out/wb_rewrite`;
const folder = mkdtempSync(`${tmpdir()}/modules-`);
const hasWabt = spawnSync("wasm2wat", ["--version"]).status === 0;

// The module as the program writes it, or none where it refuses.
function rewritten(bytes) {
  const run = spawnSync(rewrite, [], { input: bytes, maxBuffer: 1 << 28 });
  return run.status === 0 ? run.stdout : null;
}

function text(bytes) {
  writeFileSync(`${folder}/m.wasm`, bytes);
  return execFileSync("wasm2wat", [`${folder}/m.wasm`], { encoding: "utf8", maxBuffer: 1 << 28 });
}

let count = 0;
function expect(what, holds) {
  count += 1;
  if (!holds) {
    console.error(`peers: ${what}`);
    process.exit(1);
  }
}

for (let seed = 0; seed < 60; seed += 1) {
  const original = moduleOf(seed);
  expect(`module ${seed} is made wrongly`, WebAssembly.validate(original));
  const out = rewritten(original);
  expect(`module ${seed} is refused`, out !== null);
  expect(`module ${seed} grows`, out.length <= original.length);
  expect(`module ${seed} is not valid any more`, WebAssembly.validate(out));
  expect(`module ${seed} changes when it is written twice`, Buffer.compare(rewritten(out), out) === 0);
  if (hasWabt) expect(`module ${seed} has another text`, text(original) === text(out));
  // Cut short it is a module only where a section ends, and then node agrees but for functions without bodies.
  for (const at of [9, 20, original.length - 1]) {
    expect(`module ${seed} cut to ${at} bytes is read`, rewritten(original.subarray(0, at)) === null || WebAssembly.validate(original.subarray(0, at)));
  }
}
rmSync(folder, { recursive: true });
console.log(`peers: node${hasWabt ? " and wabt" : ""} agreed on modules that were written again, ${count} checks`);
