// Milliseconds that a verdict takes on modules that are made to be slow: nested constructs, exports, runs of locals, parameters.
// Usage: node bench/hostile.mjs (after bench/modules has built the program)
import { spawnSync } from "node:child_process";
import { unsigned } from "../tests/peers/spelling.mjs";

const program = new URL("../crates/wb_rewrite/out/wb_rewrite", import.meta.url).pathname;
const header = Buffer.from([0, 0x61, 0x73, 0x6d, 1, 0, 0, 0]);
const type = Buffer.from([1, 0x60, 0, 1, 0x7e]);
const funcs = Buffer.from([1, 0]);
const seven = [0x42, 7, 0x0b];

function section(id, parts) {
  const contents = Buffer.concat(parts);
  return Buffer.concat([Buffer.from([id, ...unsigned(contents.length)]), contents]);
}

function bodies(list) {
  return [Buffer.from(unsigned(list.length)), ...list.flatMap((body) => [Buffer.from(unsigned(body.length)), body])];
}

function verdict(what, sections) {
  const module = Buffer.concat([header, ...sections]);
  const start = process.hrtime.bigint();
  const run = spawnSync(program, ["verdict"], { input: module, encoding: "utf8", maxBuffer: 1 << 28 });
  const milliseconds = Number(process.hrtime.bigint() - start) / 1e6;
  console.log(`${what}: ${module.length} bytes, ${run.stdout.trim()}, ${milliseconds.toFixed(0)} ms`);
}

const depth = 8 << 20;
verdict("8,388,608 blocks in one another", [section(1, [type]), section(3, [funcs]), section(10, bodies([Buffer.concat([Buffer.from([0]), Buffer.alloc(2 * depth, Buffer.from([2, 0x40])), Buffer.alloc(depth, 0x0b), Buffer.from(seven)])]))]);

const exports = 2000000;
const names = Array.from({ length: exports }, (_, i) => Buffer.from((i === exports - 1 ? i - 1 : i).toString(36)));
verdict("2,000,000 exports, the last with the name of the one before", [section(1, [type]), section(3, [funcs]), section(7, [Buffer.from(unsigned(exports)), ...names.flatMap((name) => [Buffer.from([name.length]), name, Buffer.from([0, 0])])]), section(10, bodies([Buffer.from([0, ...seven])]))]);

const runs = 5000000;
const reads = Buffer.concat(Array.from({ length: 1000000 }, (_, i) => Buffer.from([0x20, ...unsigned((i * 7919) % runs), 0x1a])));
verdict("5,000,000 runs of locals, 1,000,000 of them read", [section(1, [type]), section(3, [funcs]), section(10, bodies([Buffer.concat([Buffer.from(unsigned(runs)), Buffer.alloc(2 * runs, Buffer.from([1, 0x7f, 1, 0x7e])), reads, Buffer.from(seven)])]))]);

const params = 3000000;
verdict("3,000,000 calls with 3,000,000 parameters, never reached", [section(1, [Buffer.from([2, 0x60, 0, 1, 0x7e, 0x60, ...unsigned(params)]), Buffer.alloc(params, 0x7e), Buffer.from([0])]), section(3, [Buffer.from([2, 0, 1])]), section(10, bodies([Buffer.concat([Buffer.from([0, 0]), Buffer.alloc(2 * params, Buffer.from([0x10, 1])), Buffer.from([0x0b])]), Buffer.from([0, 0x0b])]))]);
