// The calls for columns beside those for one text: web/measure runs it.
import { check, checkMany, isLowered, segwit } from '../out/package/index.js';
import { Instance } from '../out/package/instance.js';
import { compiled } from '../out/package/modules.js';
import { numbersFrom } from './reference.mjs';

const ROWS = Number(process.argv[2]), FEW = Math.ceil(ROWS / 10), TURNS = 25;
const below = numbersFrom(80);

// Six of ten programs have 20 bytes, and the others 32; one address in a hundred has a wrong character.
const programs = Array.from({ length: ROWS }, (_, i) => Uint8Array.from({ length: i % 10 < 6 ? 20 : 32 }, () => below(256)));
const versions = new Uint8Array(ROWS), column = segwit.encodeMany('bc', versions, programs).texts, held = segwit.decodeMany(column).programs;
const texts = column.toArray().map((it, i) => (i % 100 === 99 ? `${it.slice(0, 20)}${it[20] === 'q' ? 'p' : 'q'}${it.slice(21)}` : it));
const large = { bytes: column.bytes, offsets: BigInt64Array.from(column.offsets, BigInt) };
for (let i = 99; i < ROWS; i += 100) column.bytes.set(new TextEncoder().encode(texts[i]), column.offsets[i]);

// Nanoseconds of processor for a row of each of these calls, which take turns: the least of all turns.
const timed = (calls) => {
  const least = calls.map(() => Infinity);
  for (let turn = 0; turn < TURNS; turn++) {
    calls.forEach(([count, call], i) => {
      const before = process.cpuUsage();
      call();
      const { user, system } = process.cpuUsage(before);
      least[i] = Math.min(least[i], (1000 * (user + system)) / count);
    });
  }
  return least;
};
const each = (list, call) => () => {
  for (const it of list.slice(0, FEW)) {
    try {
      call(it);
    } catch {
      // One in a hundred is refused.
    }
  }
};

// A call of the module alone, over rows that stand in its memory: no call of the package takes less.
const alone = (call) => {
  const count = Math.min(ROWS, 4000), length = column.offsets[count], offsets = column.offsets.slice(0, count + 1);
  const it = new Instance(compiled().modules[0], {
    column: 72, bytes: length, offsets: offsets.byteLength, numbers: count, versions: count, hrpLengths: count, hrp: 2,
    made: 40 * count, madeOffsets: offsets.byteLength, done: 8,
  });
  it.putBytes('bytes', column.bytes.subarray(0, length));
  it.putBytes('offsets', new Uint8Array(offsets.buffer));
  it.putSizes('column', [it.at.bytes, length, it.at.offsets, offsets.byteLength, it.at.bytes, 0, count, 0]);
  it.view.setUint32(it.at.column + 64, 1, true);
  const part = it.putText('hrp', 'bc').length, p = (name) => it.pointer(name), rows = BigInt(count);
  return () => {
    for (let done = 0; done < ROWS; done += count) if (call(it, p, rows, part) !== 0) throw new Error('the module refused a column');
  };
};
const decodeAlone = alone((it, p, rows, part) => it.call('bech32_segwit_decode_many', p('column'), 0n, p('hrp'), part, p('numbers'), rows,
  p('versions'), rows, p('hrpLengths'), rows, p('madeOffsets'), rows + 1n, p('made'), 40n * rows, p('done')));
const checkAlone = alone((it, p, rows) => it.call('bech32_check_many', 1, p('column'), 0n, p('numbers'), rows));

const SETS = [
  ['segwit.decode', each(texts, segwit.decode), [
    ['decodeMany, a column', () => segwit.decodeMany(column, 'bc')], ['with offsets of 64 bits', () => segwit.decodeMany(large, 'bc')],
    ['a list of strings', () => segwit.decodeMany(texts, 'bc')], ['the module alone', decodeAlone],
  ]],
  ['check', each(texts, (it) => check('bech32', it)), [
    ['checkMany, a column', () => checkMany('bech32', column)], ['a list of strings', () => checkMany('bech32', texts)],
    ['the module alone', checkAlone],
  ]],
  ['segwit.encode', each(programs, (it) => segwit.encode('bc', 0, it)), [
    ['encodeMany, a column', () => segwit.encodeMany('bc', versions, held)],
    ['a list of Uint8Array', () => segwit.encodeMany('bc', versions, programs)],
  ]],
];

console.log(`${ROWS} addresses, ${isLowered ? 'the lowered module' : 'the module as it was built'}; nanoseconds a row, and the single calls over them`);
for (const [name, single, calls] of SETS) {
  const [one, ...many] = timed([[FEW, single], ...calls.map(([, call]) => [ROWS, call])]);
  console.log(`${name.padEnd(28)}${one.toFixed(0).padStart(6)}`);
  calls.forEach(([what], i) => {
    console.log(`  ${what.padEnd(26)}${many[i].toFixed(0).padStart(6)}${(one / many[i]).toFixed(1).padStart(7)}`);
  });
}
