// Modules that were damaged by number, judged by the program, by node and by wabt. Where they differ, the output says why.
// Usage: node tests/peers/verdicts.mjs TOP [COUNT]
import { spawnSync } from "node:child_process";
import { mkdtempSync, rmSync, writeFileSync } from "node:fs";
import { tmpdir } from "node:os";
import { moduleOf, numbers } from "./spelling.mjs";

const top = process.argv[2];
const count = Number(process.argv[3] ?? 200);
const program = `${top}/crates/wb_rewrite/out/wb_rewrite`;
const folder = mkdtempSync(`${tmpdir()}/verdicts-`);
const file = `${folder}/m.wasm`;
const hasWabt = spawnSync("wasm-validate", ["--version"]).status === 0;
// Core 1.0, so without what later versions added.
const later = ["saturating-float-to-int", "sign-extension", "simd", "multi-value", "bulk-memory", "reference-types"].map((feature) => `--disable-${feature}`);

// Opcodes, types and small numbers that change what is valid more often than what is well formed.
const bytes = [0x00, 0x01, 0x02, 0x03, 0x04, 0x05, 0x0b, 0x0c, 0x0d, 0x0e, 0x0f, 0x10, 0x1a, 0x1b, 0x20, 0x21, 0x22, 0x23, 0x24, 0x28, 0x29, 0x36, 0x37, 0x3f, 0x40, 0x41, 0x42, 0x45, 0x50, 0x51, 0x6a, 0x7c, 0x7e, 0x7f, 0xa7, 0xac];

function damaged(seed) {
  const next = numbers(seed + 1000);
  const module = [...moduleOf(seed, 1 + next(2), 1 + next(6))];
  for (let change = 0; change <= next(3); change += 1) {
    const at = 8 + next(module.length - 8);
    switch (next(4)) {
      case 0:
        module[at] = next(256);
        break;
      case 1:
        module[at] ^= 1 << next(8);
        break;
      default:
        module[at] = bytes[next(bytes.length)];
    }
  }
  return Uint8Array.from(module);
}

function wabtSays(module) {
  writeFileSync(file, module);
  const run = spawnSync("wasm-validate", [...later, file], { encoding: "utf8" });
  return run.status === 0 ? "valid" : run.stderr.split("\n")[0].replace(/^.*?: /, "");
}

// Why node refuses the module, or nothing where it accepts it.
function nodeRefuses(module) {
  try {
    new WebAssembly.Module(module);
    return "";
  } catch (error) {
    return error.message.replace(/^.*?: /, "");
  }
}

const tally = { valid: 0, refused: 0 };
let wrong = 0;
let differences = 0;
function differs(seed, ours, why, isWrong) {
  differences += 1;
  wrong += isWrong ? 1 : 0;
  console.log(`peers: module ${seed}: ${ours}; ${why}`);
}

for (let seed = 0; seed < count; seed += 1) {
  const module = damaged(seed);
  const run = spawnSync(program, ["verdict"], { input: module, encoding: "utf8" });
  const ours = run.stdout.trim();
  const isValid = ours === "valid";
  tally[isValid ? "valid" : "refused"] += 1;
  const node = nodeRefuses(module);
  const wabt = hasWabt ? wabtSays(module) : null;
  if (isValid && node !== "") {
    // the standard bounds neither the number of locals nor that of nested constructs
    const isLimit = /too large|maximum|exceed/.test(node);
    differs(seed, ours, `node: ${node}${isLimit ? " (a limit of the engine)" : ""}`, !isLimit);
  }
  if (isValid && wabt !== null && wabt !== "valid") differs(seed, ours, `wabt: ${wabt}`, true);
  if (!isValid && wabt === "valid" && !/outside/.test(ours)) {
    const isAlone = node !== "";
    differs(seed, ours, isAlone ? `wabt accepts it, and node does not: ${node}` : "node and wabt accept it", !isAlone);
  }
  if (!isValid && wabt === null && node === "" && !/outside/.test(ours)) differs(seed, ours, "node accepts it, as what a later version of the standard added or against Core 1.0; wabt is not here to tell", false);
}
rmSync(folder, { recursive: true });
console.log(`peers: ${count} damaged modules, ${tally.valid} valid, ${tally.refused} refused; node${hasWabt ? " or wabt" : ""} judged ${differences} otherwise, ${wrong} without a reason`);
process.exit(wrong === 0 ? 0 : 1);
