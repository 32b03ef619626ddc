// Builds modules with ./cftt, and has node's WebAssembly validate and run them.
import { execFileSync } from "node:child_process";
import { readFileSync, readdirSync } from "node:fs";

const top = process.argv[2];
const cftt = `${top}/cftt`;

// The module of a source, or the status with which it was refused.
function build(source, words = ["build"]) {
  try {
    return execFileSync(cftt, words, { input: source, stdio: ["pipe", "pipe", "inherit"] });
  } catch (failure) {
    if (failure.stdout.length !== 0) throw new Error("a refusal wrote to standard output");
    return failure.status;
  }
}

// What `main` of the module returns.
function run(module) {
  if (!WebAssembly.validate(module)) throw new Error("the module is not valid");
  return new WebAssembly.Instance(new WebAssembly.Module(module)).exports.main();
}

let count = 0;
function expect(what, got, want) {
  count += 1;
  if (got !== want) {
    console.error(`peers: ${what}: ${got}, wanted ${want}`);
    process.exit(1);
  }
}

// Examples: with `.expected` what `main` returns, with `.core` the printed form of the core, which is its own core. The page on the language
// has each program and each core, where long lines are broken.
const inOneLine = (text) => text.replace(/\s+/g, " ").trim();
const page = inOneLine(readFileSync(`${top}/docs/language.md`, "utf8"));
for (const name of readdirSync(`${top}/examples`)) {
  const source = `${top}/examples/${name.replace(/[.]\w+$/, ".cftt")}`;
  const text = readFileSync(`${top}/examples/${name}`, "utf8");
  if (!name.endsWith(".expected")) expect(`${name} in docs/language.md`, page.includes(inOneLine(text)), true);
  if (name.endsWith(".expected")) expect(name, run(build(readFileSync(source))), BigInt(text.trim()));
  if (name.endsWith(".core")) {
    expect(name, `${build(readFileSync(source), ["core"])}`, text);
    expect(`${name} again`, `${build(text, ["core"])}`, text);
  }
}

// Numbers at the edges of their encodings, alone and in sums that wrap.
const edges = [0n, 1n, -1n, 63n, 64n, -64n, -65n, 127n, 128n, 8191n, 8192n, -8192n, -8193n, 2n ** 31n, 2n ** 32n, 2n ** 62n, 2n ** 63n - 1n, -(2n ** 63n)];
for (const a of edges) {
  expect(`${a}`, run(build(`main : Int := ${a};`)), a);
  const b = edges[Number(BigInt.asUintN(8, a)) % edges.length];
  expect(`add ${a} ${b}`, run(build(`main:Int:=add(${a})${b < 0n ? b : ` ${b}`};`)), BigInt.asIntN(64, a + b));
}

// Deep sums to the left and to the right, made by number.
function sum(depth, seed) {
  const n = BigInt.asIntN(64, BigInt(seed) * 6364136223846793005n + 1442695040888963407n);
  if (depth === 0) return [`${n}`, n];
  const [left, a] = sum(seed % 3 === 0 ? 0 : depth - 1, seed * 2 + 1);
  const [right, b] = sum(seed % 3 === 1 ? 0 : depth - 1, seed * 2 + 2);
  return [`(add ${left} ${right})`, BigInt.asIntN(64, a + b)];
}
for (let seed = 0; seed < 12; seed += 1) {
  const [text, value] = sum(7, seed);
  expect(`sum ${seed}`, run(build(`main : Int := ${text};`)), value);
}

// Refusals: nothing is written, and the status tells them apart.
expect("no words", build("", []), 2);
expect("a word too many", build("main : Int := 1;", ["build", "x"]), 2);
expect("no program", build("main : Int := x;"), 1);

console.log(`peers: node validated and ran what was built, ${count} checks`);
