// Modules by number whose runs end: arithmetic of both types, memory, a global, calls, branches and loops with counters.
import { numbers, signed, unsigned } from "./spelling.mjs";

const i32 = 0x7f;
const i64 = 0x7e;
// Locals of each function: two arguments, three more of i64, two of i32, and the counter of each loop.
const longs = 5;
const words = 2;
const counters = 6;

const edges = [0n, 1n, -1n, 2n, 7n, 31n, 32n, 63n, 64n, 255n, 65535n, 65536n, 2n ** 31n - 1n, -(2n ** 31n), 2n ** 32n, 2n ** 62n, 2n ** 63n - 1n, -(2n ** 63n)];

class Body {
  constructor(next, func, functions) {
    this.next = next;
    this.func = func;
    this.functions = functions;
    this.loops = 0;
    this.labels = 0;
  }

  pick(...makers) {
    return makers[this.next(makers.length)]();
  }

  constant(type) {
    const edge = edges[this.next(edges.length)];
    return type === i64 ? [0x42, ...signed(edge)] : [0x41, ...signed(BigInt.asIntN(32, edge), 0, 5)];
  }

  local(type) {
    return [0x20, ...unsigned(type === i64 ? this.next(longs) : longs + this.next(words))];
  }

  // An address that mostly lies in the memory, and the alignment and the offset.
  address(depth) {
    return this.next(20) === 0 ? this.value(i32, depth) : [...this.value(i32, depth), 0x41, ...signed(0xfff8n, 0, 5), 0x71];
  }

  // Code that leaves a value of the type.
  value(type, depth) {
    if (depth <= 0) return this.pick(() => this.constant(type), () => this.local(type));
    const [first, count] = type === i64 ? [0x79, 18] : [0x67, 18];
    return this.pick(
      () => this.constant(type),
      () => this.local(type),
      () => {
        const opcode = first + this.next(count);
        const operands = opcode < first + 3 ? 1 : 2;
        return [...this.value(type, depth - 1), ...(operands === 2 ? this.value(type, depth - 1) : []), opcode];
      },
      () => [...this.value(type, depth - 1), ...this.value(type, depth - 1), ...this.value(i32, depth - 1), 0x1b],
      () => (type === i64 ? [...this.value(i32, depth - 1), 0xac + this.next(2)] : [...this.value(i64, depth - 1), 0xa7]),
      () => {
        if (type === i64) return [0x23, 0x00];
        const of = this.next(2) === 0 ? i64 : i32;
        const comparison = (of === i64 ? 0x50 : 0x45) + this.next(11);
        const alone = comparison === 0x50 || comparison === 0x45;
        return [...this.value(of, depth - 1), ...(alone ? [] : this.value(of, depth - 1)), comparison];
      },
      () => {
        const loads = type === i64 ? [0x29, 0x30, 0x31, 0x32, 0x33, 0x34, 0x35] : [0x28, 0x2c, 0x2d, 0x2e, 0x2f];
        return [...this.address(depth - 1), loads[this.next(loads.length)], 0x00, ...unsigned(this.next(9))];
      },
      () => (type === i64 && this.func + 1 < this.functions ? [...this.value(i64, depth - 1), ...this.value(i64, depth - 1), 0x10, ...unsigned(this.func + 1 + this.next(this.functions - this.func - 1))] : type === i64 ? this.constant(i64) : [0x3f, 0x00]),
      () => [...this.value(i32, depth - 1), 0x04, type, ...this.value(type, depth - 1), 0x05, ...this.value(type, depth - 1), 0x0b],
    );
  }

  inside(make) {
    this.labels += 1;
    const code = make();
    this.labels -= 1;
    return code;
  }

  // Code that leaves the stack as it was.
  statement(depth) {
    return this.pick(
      () => [...this.value(i64, 3), 0x21, ...unsigned(this.next(longs))],
      () => [...this.value(i32, 3), 0x22, ...unsigned(longs + this.next(words)), 0x1a],
      () => [...this.value(i64, 3), 0x24, 0x00],
      () => {
        const type = this.next(2) === 0 ? i64 : i32;
        const stores = type === i64 ? [0x37, 0x3c, 0x3d, 0x3e] : [0x36, 0x3a, 0x3b];
        return [...this.address(2), ...this.value(type, 2), stores[this.next(stores.length)], 0x00, ...unsigned(this.next(9))];
      },
      () => [...this.value(i32, 3), 0x04, 0x40, ...this.inside(() => this.statements(depth - 1, 2)), 0x05, ...this.inside(() => this.statements(depth - 1, 2)), 0x0b],
      () => [0x02, 0x40, ...this.inside(() => [...this.statements(depth - 1, 2), ...this.value(i32, 2), 0x0d, ...unsigned(0), ...this.statements(depth - 1, 2)]), 0x0b],
      () => [0x02, 0x40, 0x02, 0x40, ...this.value(i32, 2), 0x0e, 0x02, 0x00, 0x01, 0x00, 0x0b, ...this.statements(depth - 1, 1), 0x0b],
      () => this.loop(depth),
      () => (this.next(6) === 0 ? [...this.value(i32, 3), 0x04, 0x40, 0x00, 0x0b] : [0x01]),
      () => (this.next(4) === 0 ? [...this.value(i32, 3), 0x04, 0x40, ...this.value(i64, 2), 0x0f, 0x0b] : [0x01]),
    );
  }

  // A loop of a few turns, counted in a local of its own.
  loop(depth) {
    if (depth <= 0 || this.loops === counters) return [0x01];
    const counter = unsigned(longs + words + this.loops);
    this.loops += 1;
    return [
      0x41, ...signed(BigInt(1 + this.next(12)), 0, 5), 0x21, ...counter, 0x03, 0x40,
      ...this.inside(() => this.statements(depth - 1, 2)),
      0x20, ...counter, 0x41, 0x01, 0x6b, 0x22, ...counter, 0x0d, 0x00, 0x0b,
    ];
  }

  statements(depth, count) {
    if (depth <= 0) return [0x01];
    return Array.from({ length: count }, () => this.statement(depth)).flat();
  }
}

function section(id, contents) {
  return [id, ...unsigned(contents.length), ...contents];
}

// A module whose functions are all (i64, i64) -> i64 and call only those behind them; `main` is the first. It has a memory of one page.
export function programOf(seed, functions = 3, called = null) {
  const next = numbers(seed);
  const bodies = Array.from({ length: functions }, (_, func) => {
    const body = new Body(next, func, functions);
    const locals = [0x02, ...unsigned(longs - 2), i64, ...unsigned(words + counters), i32];
    const code = [...locals, ...body.statements(3, 5), ...body.value(i64, 4), 0x0b];
    return [...unsigned(code.length), ...code];
  });
  const type = [0x60, 0x02, i64, i64, 0x01, i64];
  return moduleWith(type, bodies, [0x01, 0x00, 0x01], [0x01, i64, 0x01, 0x42, ...signed(BigInt(next(5000)) - 2500n), 0x0b], called);
}

// The module with these functions, all of this type; the first is exported as `main`. Where arguments are given, a function that calls it
// with them is exported in its place.
export function moduleWith(type, bodies, memories, globals, called = null) {
  const count = bodies.length;
  const call = called === null ? [] : [0x00, ...called.flatMap((z) => [0x42, ...signed(BigInt(z))]), 0x10, 0x00, 0x0b];
  const more = called === null ? 0 : 1;
  const all = called === null ? bodies : [...bodies, [...unsigned(call.length), ...call]];
  return Uint8Array.from([
    0x00, 0x61, 0x73, 0x6d, 0x01, 0x00, 0x00, 0x00,
    ...section(1, [...unsigned(1 + more), ...type, ...(more === 0 ? [] : [0x60, 0x00, 0x01, i64])]),
    ...section(3, [...unsigned(count + more), ...bodies.map(() => 0), ...(more === 0 ? [] : [0x01])]),
    ...section(5, memories),
    ...(globals === null ? [] : section(6, globals)),
    ...section(7, [0x01, 0x04, ...Buffer.from("main"), 0x00, ...unsigned(more === 0 ? 0 : count)]),
    ...section(10, [...unsigned(count + more), ...all.flat()]),
  ]);
}
