// What web/narrow makes of a lowered module computes what it did: small modules before and after it.
import test from 'node:test';
import assert from 'node:assert/strict';
import fs from 'node:fs';
import os from 'node:os';
import path from 'node:path';
import { spawnSync } from 'node:child_process';
import { numbersFrom } from './reference.mjs';

const NARROW = path.join(import.meta.dirname ?? path.dirname(new URL(import.meta.url).pathname), '..', 'narrow');
const hasPython = spawnSync('python3', ['--version']).status === 0;
const below = numbersFrom(83);

const I32 = 0x7f, I64 = 0x7e, MEMORY = 65536;
const unsigned = (n) => (n < 128 ? [n] : [(n & 127) | 128, ...unsigned(n >>> 7)]);
const signed = (n) => (n >= -64 && n < 64 ? [n & 127] : [(n & 127) | 128, ...signed(n >> 7)]);
const vector = (items) => [...unsigned(items.length), ...items.flat()];
const section = (kind, bytes) => [kind, ...unsigned(bytes.length), ...bytes];

// Instructions, each as its bytes.
const local = (i) => [0x20, i], set = (i) => [0x21, i], tee = (i) => [0x22, i];
const i32 = (n) => [0x41, ...signed(n)], i64 = (n) => [0x42, ...signed(n)];
const wrap = [0xa7], add = [0x7c], sub = [0x7d], mul = [0x7e], and = [0x83], shl = [0x86], shr = [0x88], extend = [0xad], select = [0x1b];
const load = (op, offset = 0) => [op, 0, ...unsigned(offset)], store = load;
const LOAD8 = 0x2d, LOAD8_64 = 0x31, LOAD64 = 0x29, STORE64 = 0x37, STORE32_64 = 0x3e;
const fill = [0xfc, 11, 0], copy = [0xfc, 10, 0, 0];

// A module of 32-bit memory of one page with a stack pointer, and these functions: parameters, results, locals, code.
const moduleOf = (functions) => {
  const all = Object.entries(functions);
  return Uint8Array.from([
    0, 97, 115, 109, 1, 0, 0, 0,
    ...section(1, vector(all.map(([, [parameters, results]]) => [0x60, ...vector(parameters), ...vector(results)]))),
    ...section(3, vector(all.map((_, i) => unsigned(i)))),
    ...section(5, [1, 0, 1]),
    ...section(6, vector([[I64, 1, ...[0x42, ...signed(1048576)], 11]])),
    ...section(7, vector([[1, 109, 2, 0], ...all.map(([name], i) => [...vector([...new TextEncoder().encode(name)]), 0, ...unsigned(i)])])),
    ...section(10, vector(all.map(([, [, , locals, ...code]]) => {
      const body = [...vector(locals.map((it) => [1, it])), ...code.flat(), 11];
      return [...unsigned(body.length), ...body];
    }))),
  ]);
};

const narrowed = (bytes) => {
  const folder = fs.mkdtempSync(path.join(os.tmpdir(), 'narrow-')), [from, to] = ['from', 'to'].map((it) => path.join(folder, it));
  try {
    fs.writeFileSync(from, bytes);
    const { status, stderr } = spawnSync('python3', [NARROW, from, to], { encoding: 'utf8' });
    return { status, stderr, bytes: status === 0 ? fs.readFileSync(to) : null };
  } finally {
    fs.rmSync(folder, { recursive: true });
  }
};

const both = (functions) => {
  const bytes = moduleOf(functions), made = narrowed(bytes);
  assert.equal(made.status, 0, made.stderr);
  return [bytes, made.bytes].map((it) => new WebAssembly.Instance(new WebAssembly.Module(it)).exports);
};

const NOISE = Uint8Array.from({ length: MEMORY }, () => below(256));

// Calls both, over memories that hold the same at random, and compares results, or that both stop, and the memories.
const isSame = ([before, after], name, ...values) => {
  const [first, second] = [before, after].map((it) => {
    const memory = new Uint8Array(it.m.buffer);
    memory.set(NOISE);
    try {
      return [it[name](...values), memory];
    } catch (error) {
      assert.ok(error instanceof WebAssembly.RuntimeError);
      return ['stopped', memory];
    }
  });
  assert.equal(first[0], second[0], `${name} ${values}`);
  assert.ok(Buffer.compare(first[1], second[1]) === 0, `${name} ${values}`);
  return first;
};

const left = hasPython ? {} : { skip: 'there is no python3' };

test('copies of each length, also where they overlap', left, () => {
  const modules = both({ copy: [[I32, I32, I32], [], [], local(0), local(1), local(2), copy] });
  for (let length = 0; length < 140; length++) {
    for (const apart of [0, 1, 2, 3, 7, 8, 9, 15, 16, 17, 31, 33, 63, 64, 65, length, 300]) {
      const [, memory] = isSame(modules, 'copy', 1000 + apart, 1000, length);
      assert.equal(memory.length, MEMORY);
      isSame(modules, 'copy', 1000, 1000 + apart, length);
    }
  }
  for (const length of [1, 2, 5, 12, 20, 40, 64, 65, 200]) isSame(modules, 'copy', MEMORY - length, 5, length);
});

test('zeros of each number that is a constant', left, () => {
  const sizes = [...Array(194).keys(), 500];
  const modules = both(Object.fromEntries(sizes.map((size) =>
    [`f${size}`, [[I64], [], [], local(0), i64(24), add, wrap, i32(0), i64(size), wrap, fill]])));
  for (const size of sizes) isSame(modules, `f${size}`, BigInt(2000 + below(100)));
  const others = both({
    bytes: [[I64], [], [], local(0), wrap, i32(7), i64(20), wrap, fill],
    many: [[I64, I64], [], [], local(0), wrap, i32(0), local(1), wrap, fill],
    computed: [[I64], [], [], local(0), wrap, load(0x28), i32(0xffff), [0x71], i32(0), i64(16), wrap, fill],
  });
  isSame(others, 'bytes', 3000n);
  for (const size of [0n, 3n, 80n]) isSame(others, 'many', 3000n, size);
  isSame(others, 'computed', 3000n);
});

test('addresses are the same', left, () => {
  const modules = both({
    front: [[I64], [I32], [], local(0), i64(7), add, wrap, load(LOAD8)],
    behind: [[I64], [I32], [], local(0), i64(-3), add, wrap, load(LOAD8)],
    far: [[I64], [I32], [], local(0), i64(40000), add, wrap, load(LOAD8)],
    both: [[I64, I64], [I32], [], local(0), local(1), add, i64(5), add, i64(2), add, wrap, load(LOAD8, 9)],
    table: [[I64], [I64], [], local(0), wrap, load(LOAD8_64), i64(3), shl, wrap, load(LOAD64, 20000)],
    masked: [[I32], [I64], [], local(0), i32(18), [0x76], extend, i64(16380), and, i64(30000), add, wrap, load(LOAD64)],
    high: [[I64], [I32], [], local(0), i64(40), shr, i64(1000), add, wrap, load(LOAD8)],
    product: [[I64, I64], [I32], [], local(0), local(1), mul, i64(1), sub, wrap, load(LOAD8)],
    loaded: [[I64], [I32], [], local(0), wrap, load(LOAD64), i64(65535), and, wrap, load(LOAD8)],
    chosen: [[I64, I64, I32], [I32], [], local(0), i64(16), add, local(1), local(2), select, wrap, load(LOAD8, 1)],
    kept: [[I64], [I64], [I64], local(0), i64(16), add, tee(1), wrap, load(LOAD64), local(1), add],
    between: [[I64], [I64], [I64], local(0), local(0), i64(8), add, set(1), wrap, load(LOAD64), local(1), wrap, load(LOAD64), add],
    stored: [[I64, I64], [], [], local(0), i64(12), add, wrap, local(1), store(STORE64, 4), local(0), i64(1), add, wrap, local(1), store(STORE32_64)],
  });
  for (const p of [1024n, 1025n, 4000n, 25000n, 65535n, 65529n, 65528n]) {
    for (const name of ['front', 'behind', 'far', 'table', 'kept', 'between']) isSame(modules, name, p);
    // Of a number that is cut, what is cut off is not read: behind the memory's end that stops nothing.
    isSame(modules, 'loaded', p > 65528n ? 65528n : p);
    for (const q of [0n, 1n, -1n, -900n, 30000n, 2n ** 40n]) for (const name of ['both', 'product', 'stored']) isSame(modules, name, p, q);
    for (const which of [0, 1]) isSame(modules, 'chosen', p, 2000n, which);
  }
  for (const p of [-40000n + 2000n, -1n, 2n, 3n, 5n]) for (const name of ['behind', 'far']) isSame(modules, name, p);
  for (let i = 0; i < 40; i++) isSame(modules, 'masked', below(2 ** 31) - below(2 ** 31));
  for (const p of [0n, 5n << 40n, (1n << 63n) + (9n << 40n), 2n ** 60n]) isSame(modules, 'high', BigInt.asIntN(64, p));
});

test('what is not known is named', left, () => {
  const { status, stderr } = narrowed(moduleOf({ root: [[], [], [], [0x3f, 0], [0x1a]] }));
  assert.equal(status, 2);
  assert.match(stderr, /has the instruction 3f, which is not known here/);
  assert.equal(narrowed(Uint8Array.of(1, 2, 3)).status, 2);
});
