// Runs the deepest sources that the limits allow, the way that ./cftt starts the program and with a stack of 8 MB, and says how each ends.
// None may end by a signal.
import { spawnSync } from "node:child_process";

const top = process.argv[2];

// One level of a term: a word, 16 arguments and 16 operands of `@` around the level below it.
const level = (inside) => `fst ${inside}${" a".repeat(16)}${" @ a".repeat(16)}`;

// Phrases in one another, as many as the grammar allows, each but the innermost with an arrow too.
const nest = (levels) => {
  let term = level("a");
  for (let n = 0; n < levels; n += 1) term = `${level(`(${term})`)} -> a`;
  return `explicit; a : Int := 1; main : Int := ${term};`;
};

// A branch that binds so many names.
const names = (count) => {
  const bound = Array.from({ length: count }, (_, n) => `x${n}`).join(" ");
  return `explicit; main : Int := case con yes[]() : V Int of { no . 1 | yes ${bound} . x0 };`;
};

// Parentheses as far as a source may go.
const parentheses = () => {
  const front = "main : Int := ";
  const many = (1048576 - front.length - 2) / 2;
  return `${front}${"(".repeat(many)}7${")".repeat(many)};`;
};

// Sources, and the statuses that `core` and `build` end with.
const sources = [
  ["199 phrases of 34 forms in one another", nest(199), 0, 1],
  ["200 phrases of 34 forms in one another", nest(200), 1, 1],
  ["20,000 names in one branch", names(20000), 0, 1],
  ["1 MiB of parentheses", parentheses(), 1, 1],
];

const ways = [
  ["./cftt", (word) => [`${top}/cftt`, word]],
  ["with 8 MB", (word) => ["sh", "-c", `ulimit -s 8192 && exec "$@"`, "sh", `${top}/crates/cftt/out/cftt`, word]],
];

let failed = 0;
for (const [what, source, ...statuses] of sources) {
  for (const [number, word] of ["core", "build"].entries()) {
    for (const [way, command] of ways) {
      const [program, ...args] = command(word);
      const ran = spawnSync(program, args, { input: source, maxBuffer: 1 << 26 });
      const told = ran.stderr.toString().trim();
      const end = ran.signal ? `died by ${ran.signal}` : told === "" ? `${ran.stdout.length} bytes` : told;
      if (ran.status !== statuses[number]) failed += 1;
      console.log(`depths: ${what} (${source.length} bytes), ${word}, ${way}: ${end}, status ${ran.status}`);
    }
  }
}
if (failed > 0) {
  console.log(`depths: ${failed} runs ended otherwise than they should`);
  process.exit(1);
}
