// The answers of Node's engine to each function of an object (tests/assemble.py): a hash of those to 841 pairs of numbers.
//
//     node --experimental-wasm-memory64 translator/tests/engine.mjs OBJECT
import fs from 'node:fs';

const ALL = (1n << 64n) - 1n;
const TOP = 65536n; // of the stack
const memory = new WebAssembly.Memory({ initial: 1, index: 'i64' });
const pointer = new WebAssembly.Global({ value: 'i64', mutable: true }, TOP);
const unsigned = (x) => BigInt.asUintN(64, x);
const env = {
  __linear_memory: memory,
  __stack_pointer: pointer,
  __rattle_enter: () => 0,
  __rattle_leave: () => {},
  __rattle_trap: () => {
    throw new WebAssembly.RuntimeError('trap');
  },
  __multi3: (to, low, high, otherLow, otherHigh) => {
    const product = (unsigned(low) | (unsigned(high) << 64n)) * (unsigned(otherLow) | (unsigned(otherHigh) << 64n));
    const view = new DataView(memory.buffer);
    view.setBigUint64(Number(to), product & ALL, true);
    view.setBigUint64(Number(to) + 8, (product >> 64n) & ALL, true);
  },
  __lshrti3: (to, low, high, by) => {
    const shifted = (unsigned(low) | (unsigned(high) << 64n)) >> BigInt(by);
    const view = new DataView(memory.buffer);
    view.setBigUint64(Number(to), shifted & ALL, true);
    view.setBigUint64(Number(to) + 8, shifted >> 64n, true);
  },
};
const EDGES = [0n, 1n, 2n, 7n, 8n, 31n, 32n, 63n, 64n, 127n, 128n, 255n, 32767n, 32768n, 65535n, 65536n, 2147483647n,
  2147483648n, 4294967295n, 4294967296n, 1n << 63n, (1n << 63n) - 1n, ALL, ALL - 1n, 0x123456789abcdef0n,
  0xfedcba9876543210n, 0xffffffff80000000n, 0xffffffffffffff80n, 0xffffffffffff8000n];
const TRAPPED = 0xdeaddeaddeaddeadn;

const { exports } = new WebAssembly.Instance(new WebAssembly.Module(fs.readFileSync(process.argv[2])), { env });

function answer(name, a, b) {
  pointer.value = TOP;
  try {
    return unsigned(exports[name](BigInt.asIntN(64, a), BigInt.asIntN(64, b)));
  } catch (e) {
    if (e instanceof WebAssembly.RuntimeError) return TRAPPED;
    throw e;
  }
}

for (const name of Object.keys(exports)) {
  let hash = 0xcbf29ce484222325n;
  for (const a of EDGES) {
    for (const b of EDGES) hash = ((hash ^ answer(name, a, b)) * 0x100000001b3n) & ALL;
  }
  console.log(name, hash.toString(16).padStart(16, '0'));
}
