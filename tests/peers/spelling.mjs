// Modules by number, spelled as the binary format allows: padded numbers, custom sections anywhere.
export function numbers(seed) {
  let state = BigInt.asUintN(64, BigInt(seed) * 0x9e3779b97f4a7c15n + 1n);
  return (bound) => {
    state = BigInt.asUintN(64, state * 6364136223846793005n + 1442695040888963407n);
    return Number((state >> 33n) % BigInt(bound));
  };
}

// An unsigned number in its fewest bytes and up to `more` bytes besides, at most `most` in all.
export function unsigned(n, more = 0, most = 5) {
  const bytes = [];
  let rest = BigInt(n);
  do {
    bytes.push(Number(rest & 0x7fn));
    rest >>= 7n;
  } while (rest !== 0n);
  while (more > 0 && bytes.length < most) {
    bytes.push(0);
    more -= 1;
  }
  return bytes.map((byte, i) => (i + 1 < bytes.length ? byte | 0x80 : byte));
}

export function signed(z, more = 0, most = 10) {
  const bytes = [];
  let rest = BigInt(z);
  for (;;) {
    const low = Number(BigInt.asUintN(7, rest));
    rest >>= 7n;
    bytes.push(low);
    const sign = (low & 0x40) !== 0;
    if ((rest === 0n && !sign) || (rest === -1n && sign)) break;
  }
  const fill = z < 0n ? 0x7f : 0;
  while (more > 0 && bytes.length < most) {
    bytes.push(fill);
    more -= 1;
  }
  return bytes.map((byte, i) => (i + 1 < bytes.length ? byte | 0x80 : byte));
}

// Instructions that leave the stack as it was, without `end`.
function instructions(next, depth, count) {
  const code = [];
  for (let i = 0; i < count; i += 1) {
    switch (next(depth > 4 ? 7 : 10)) {
      case 0:
        code.push(0x42, ...signed(BigInt.asIntN(64, BigInt(next(2 ** 31)) * BigInt(next(2 ** 31) * 4 + 1) - BigInt(next(3)) * (1n << 40n)), next(3)), 0x1a);
        break;
      case 1:
        code.push(0x41, ...signed(BigInt(next(2 ** 31)) - BigInt(next(2 ** 31)), next(3), 5), 0x1a);
        break;
      case 2:
        code.push(0x20, ...unsigned(next(3), next(3)), 0x42, ...signed(BigInt(next(1000)) - 500n), 0x7c + next(3), 0x21, ...unsigned(next(3), next(3)));
        break;
      case 3:
        code.push(0x41, ...signed(BigInt(next(60000)), 0, 5), 0x29, ...unsigned(next(4), next(2)), ...unsigned(next(5000), next(3)), 0x1a);
        break;
      case 4:
        code.push(0x41, 0x00, 0x20, 0x01, 0x37, ...unsigned(3), ...unsigned(next(70000), next(2)));
        break;
      case 5:
        code.push(0x23, ...unsigned(0, next(3)), 0x24, ...unsigned(0, next(3)));
        break;
      case 6:
        code.push(0x01);
        break;
      case 7:
        code.push(0x02, 0x40, ...instructions(next, depth + 1, next(4)), 0x0b);
        break;
      case 8:
        code.push(0x03, 0x40, ...instructions(next, depth + 1, next(4)), 0x41, 0x00, 0x0d, ...unsigned(0, next(3)), 0x0b);
        break;
      default:
        code.push(0x20, 0x02, 0x50, 0x04, 0x40, ...instructions(next, depth + 1, next(3)), 0x05, ...instructions(next, depth + 1, next(3)), 0x0b);
    }
  }
  return code;
}

function section(id, contents, next) {
  return [id, ...unsigned(contents.length, next(3)), ...contents];
}

function custom(next) {
  if (next(3) !== 0) return [];
  const name = [...Buffer.from(["x", "été", "producers"][next(3)])];
  const rest = Array.from({ length: next(20) }, () => next(256));
  return section(0, [...unsigned(name.length, next(3)), ...name, ...rest], next);
}

// A valid module: functions of type (i64, i64) -> i64 with one local, a memory, a global and exports.
export function moduleOf(seed, functions = 3, count = 12) {
  const next = numbers(seed);
  const type = [0x60, 0x02, 0x7e, 0x7e, 0x01, 0x7e];
  const bodies = Array.from({ length: functions }, () => {
    const code = [0x01, ...unsigned(1, next(3)), 0x7e, ...instructions(next, 0, count), 0x20, 0x00, 0x0b];
    return [...unsigned(code.length, next(3)), ...code];
  });
  const name = [...Buffer.from("main")];
  return Uint8Array.from([
    0x00, 0x61, 0x73, 0x6d, 0x01, 0x00, 0x00, 0x00,
    ...custom(next),
    ...section(1, [...unsigned(1, next(3)), ...type], next),
    ...custom(next),
    ...section(3, [...unsigned(functions, next(3)), ...Array.from({ length: functions }, () => unsigned(0, next(3))).flat()], next),
    ...section(5, [0x01, 0x01, ...unsigned(1), ...unsigned(2, next(2))], next),
    ...section(6, [0x01, 0x7e, 0x01, 0x42, ...signed(BigInt(next(5000)) - 2500n, next(3)), 0x0b], next),
    ...custom(next),
    ...section(7, [0x01, ...unsigned(4, next(2)), ...name, 0x00, ...unsigned(0, next(3))], next),
    ...section(10, [...unsigned(functions, next(3)), ...bodies.flat()], next),
    ...custom(next),
  ]);
}
