// Columns: of each row they say what the call for one text says, in each form of a column.
import test from 'node:test';
import assert from 'node:assert/strict';
import { BAD_ROW, check, checkMany, encode, message, NULL_ROW, OTHER_HRP, Refused, segwit } from '../out/package/index.js';
import { numbersFrom } from './reference.mjs';

const below = numbersFrom(80);
const random = (length) => Uint8Array.from({ length }, () => below(256));
const oneOf = (...rows) => rows[below(rows.length)];
const octets = (text) => new TextEncoder().encode(text);

const CHARACTERS = [...'qpzry9x8gf2tvdw0s3jn54khce6mua7l1bB?', 'é', '€', '😀', '\ud800'];

// A text that is an address, or a damaged one, or none; or null.
const someText = () => {
  const version = oneOf(0, 0, 1, 16), text = segwit.encode(oneOf('bc', 'bc', 'tb'), version, random(version === 0 ? oneOf(20, 32) : 2 + below(39)));
  const at = below(text.length);
  switch (below(12)) {
    case 0: return null;
    case 1: return text.slice(0, at) + oneOf(...CHARACTERS) + text.slice(at + 1);
    case 2: return text.toUpperCase();
    case 3: return text.slice(0, at);
    case 4: return encode(oneOf('bech32', 'bech32m', 'longBech32m'), 'a', random(below(100)));
    default: return text;
  }
};
const TEXTS = Array.from({ length: 9000 }, someText);

// The number of a refusal, or 0 and what is returned.
const numbered = (call) => {
  try {
    return [0, call()];
  } catch (error) {
    if (!(error instanceof Refused)) throw error;
    return [error.number, null];
  }
};
const checked = (checksum, text) => (text === null ? NULL_ROW : numbered(() => check(checksum, text))[0]);
const decoded = (text, hrp) => {
  if (text === null) return [NULL_ROW, null];
  const [number, address] = numbered(() => segwit.decode(text));
  return number === 0 && hrp !== null && address.hrp.toLowerCase() !== hrp.toLowerCase() ? [OTHER_HRP, null] : [number, address];
};

// Rows as Arrow lays them out, behind some that are skipped.
const arrowOf = (rows, Offsets = Int32Array, skip = 0) => {
  const parts = [...Array(skip).fill(octets('junk!')), ...rows.map((row) => (row === null ? new Uint8Array() : typeof row === 'string' ? octets(row) : row))];
  const ends = [0], validity = new Uint8Array(Math.ceil(parts.length / 8));
  for (const part of parts) ends.push(ends.at(-1) + part.length);
  parts.forEach((_, i) => {
    if (i < skip ? i % 2 : rows[i - skip] !== null) validity[i >> 3] |= 1 << (i & 7);
  });
  const offsets = Offsets === BigInt64Array ? Offsets.from(ends, BigInt) : Offsets.from(ends);
  return { bytes: Uint8Array.from(Buffer.concat(parts)), offsets, validity, first: skip };
};

const isSame = (found, rows) => {
  const programs = found.programs.toArray();
  assert.ok([found.numbers, found.versions, found.hrpLengths, programs].every(({ length }) => length === rows.length));
  rows.forEach(([number, address], i) => {
    const right = number === 0 ? [0, address.version, address.hrp.length, address.program] : [number, 0, 0, null];
    assert.deepEqual([found.numbers[i], found.versions[i], found.hrpLengths[i], programs[i]], right, String(TEXTS[i]));
  });
  assert.equal(found.programs.nullCount, rows.filter(([number]) => number !== 0).length);
};

test('a list says of each text what the call for one says', () => {
  for (const checksum of ['bech32', 'bech32m', 'longBech32', 'longBech32m']) {
    assert.deepEqual([...checkMany(checksum, TEXTS)], TEXTS.map((it) => checked(checksum, it)), checksum);
  }
  const either = checkMany(null, TEXTS);
  TEXTS.forEach((it, i) => assert.equal(either[i] === 0, ['bech32', 'bech32m'].some((by) => checked(by, it) === 0), it));
  for (const hrp of ['bc', 'BC', 'tb', null]) isSame(segwit.decodeMany(TEXTS, hrp), TEXTS.map((it) => decoded(it, hrp)));
});

test('so does a column of Arrow, whatever its offsets are, and where it begins and ends', () => {
  const right = TEXTS.map((it) => decoded(it, 'bc')), numbers = Uint8Array.from(right, ([number]) => number);
  for (const Offsets of [Int32Array, Uint32Array, BigInt64Array]) {
    for (const skip of [0, 3, 8, 77]) {
      const column = arrowOf(TEXTS, Offsets, skip);
      isSame(segwit.decodeMany(column, 'bc'), right);
      assert.deepEqual(checkMany('bech32', column), checkMany('bech32', TEXTS));
      const part = { ...column, first: skip + 41, count: 4500 };
      assert.deepEqual(segwit.decodeMany(part, 'bc').numbers, numbers.subarray(41, 4541));
    }
  }
  const shared = arrowOf(TEXTS), bytes = new Uint8Array(new SharedArrayBuffer(shared.bytes.length));
  bytes.set(shared.bytes);
  isSame(segwit.decodeMany({ ...shared, bytes }, 'bc'), right);
  const { validity, ...without } = arrowOf(TEXTS);
  assert.equal(validity.length, 1125);
  isSame(segwit.decodeMany(without, 'bc'), TEXTS.map((it) => decoded(it ?? '', 'bc')));
});

test('what is made is a column again', () => {
  const found = segwit.decodeMany(TEXTS), { numbers, texts } = segwit.encodeMany('bc', found.versions, found.programs);
  const right = TEXTS.map((text) => {
    const [number, address] = decoded(text, null);
    return number === 0 ? segwit.encode('bc', address.version, address.program) : null;
  });
  assert.deepEqual(texts.toArray(), right);
  assert.deepEqual([...numbers], right.map((it) => (it === null ? NULL_ROW : 0)));
  isSame(segwit.decodeMany(texts, 'bc'), right.map((it) => decoded(it, 'bc')));
  const { offsets, bytes, validity, nullCount, length } = texts;
  assert.ok(offsets instanceof Int32Array && offsets.length === length + 1 && offsets[0] === 0 && offsets[length] === bytes.length);
  assert.equal(nullCount, right.filter((it) => it === null).length);
  right.forEach((it, i) => assert.equal((validity[i >> 3] >> (i & 7)) & 1, Number(it !== null)));
});

test('rows are had one by one, and all', () => {
  const { texts } = segwit.encodeMany('tb', [0, 9, 1], [random(20), null, random(32)]), all = texts.toArray();
  assert.deepEqual([...texts], all);
  assert.deepEqual([0, 1, 2, -1, -3].map((i) => texts.at(i)), [all[0], null, all[2], all[2], all[0]]);
  assert.deepEqual([texts.at(3), texts.at(-4), texts.length, all[1]], [undefined, undefined, 3, null]);
  const { programs } = segwit.decodeMany(texts);
  programs.at(0).fill(0);
  assert.notDeepEqual(programs.at(0), new Uint8Array(20));
  for (const none of [[], new Set(), { bytes: new Uint8Array(), offsets: new Int32Array(1) }, { bytes: new Uint8Array(), offsets: new Int32Array() }]) {
    assert.equal(checkMany(null, none).length, 0);
    assert.deepEqual(segwit.decodeMany(none).programs.toArray(), []);
    assert.deepEqual(segwit.encodeMany('bc', [], none).texts.toArray(), []);
  }
});

test('each program says what the call for one says', () => {
  const programs = Array.from({ length: 600 }, () => (below(20) === 0 ? null : random(oneOf(0, 1, 2, 20, 20, 32, 40, 41, 100))));
  programs.push(...[8191, 8192, 8193, 9000].map(random), random(20));
  const versions = programs.map(() => oneOf(0, 0, 1, 16, 17, 31));
  const long = 'x'.repeat(84);
  for (const hrp of ['bc', 'TB', '', 'aB', 'é', long, long.slice(1)]) {
    const right = programs.map((it, i) => (it === null ? [NULL_ROW, null] : numbered(() => segwit.encode(hrp, versions[i], it))));
    for (const column of [programs, arrowOf(programs), arrowOf(programs, BigInt64Array, 5)]) {
      const { numbers, texts } = segwit.encodeMany(hrp, versions, column);
      assert.deepEqual([...numbers], right.map(([number]) => number), hrp);
      assert.deepEqual(texts.toArray(), right.map(([, text]) => text));
    }
  }
  // Many blocks of them.
  const many = Array.from({ length: 9000 }, () => random(20)), { texts } = segwit.encodeMany('bc', new Uint8Array(9000), many);
  assert.deepEqual(texts.toArray(), many.map((it) => segwit.encode('bc', 0, it)));
});

test('texts of every length, at the ends of blocks too', () => {
  const long = (length) => 'q'.repeat(length), sizes = [0, 1, 89, 90, 91, 1023, 1024, 7089, 7090, 8191, 8192, 8193, 20000];
  for (const before of [0, 4095]) {
    const rows = [...Array(before).fill('a12uel5l'), ...sizes.flatMap((it) => [`a1${long(it)}`, `é1${long(it)}`, null, 'a12uel5l'])];
    for (const column of [rows, arrowOf(rows, Int32Array, 3)]) {
      assert.deepEqual([...checkMany('bech32', column)], rows.map((it) => checked('bech32', it)));
      assert.deepEqual([...segwit.decodeMany(column).numbers], rows.map((it) => decoded(it, null)[0]));
    }
  }
  // Rows that fill a block by their bytes.
  const rows = Array.from({ length: 500 }, (_, i) => `a1${oneOf('q', 'é')}${long(3000 + i)}`);
  for (const column of [rows, arrowOf(rows)]) assert.deepEqual([...checkMany('longBech32', column)], rows.map((it) => checked('longBech32', it)));
  // A null row has that number, however many bytes are its own.
  const { bytes, offsets } = arrowOf([long(9000), 'a12uel5l']);
  assert.deepEqual([...checkMany('bech32', { bytes, offsets, validity: Uint8Array.of(2) })], [NULL_ROW, 0]);
});

// The numbers of rows whose offsets are what they are.
const ofAny = (bytes, offsets) => Array.from({ length: offsets.length - 1 }, (_, i) => {
  const [start, end] = [offsets[i], offsets[i + 1]];
  if (start < 0 || end < start || end > bytes.length) return BAD_ROW;
  return checked('bech32', new TextDecoder().decode(bytes.subarray(start, end)));
});

test('offsets that do not lie in the column end nothing, and nothing else is read by them', () => {
  const bytes = octets('a12uel5l'.repeat(3)), least = -(2 ** 31), most = 2 ** 31 - 1;
  for (const offsets of [[0, 8, 16, 24], [0, 8, 7, 15, 16, 24], [-1, 0, 8], [0, 25], [8, 25, 16, 24], [24, 24, 8, 16], [least, most, 0, 8], [most, 8, 16, least], [16, 24, 0, 8, 8, 8, most, 0, 8]]) {
    assert.deepEqual([...checkMany('bech32', { bytes, offsets: Int32Array.from(offsets) })], ofAny(bytes, offsets), offsets.join());
    assert.deepEqual([...checkMany('bech32', { bytes, offsets: BigInt64Array.from(offsets, BigInt) })], ofAny(bytes, offsets), offsets.join());
  }
  const far = [2n ** 53n, -(2n ** 63n), 2n ** 32n, 0n, 8n, 2n ** 63n - 1n, 8n, 16n];
  assert.deepEqual([...checkMany('bech32', { bytes, offsets: BigInt64Array.from(far) })], [4, 4, 4, 0, 4, 4, 0]);
  assert.deepEqual([...checkMany('bech32', { bytes, offsets: Uint32Array.of(2 ** 32 - 1, 0, 8, 2 ** 31) })], [4, 0, 4]);
  // Rows that lie far apart, in any order.
  const wide = new Uint8Array(1 << 21);
  wide.set(octets('a12uel5l'), 1 << 20);
  for (let turn = 0; turn < 40; turn++) {
    const offsets = Array.from({ length: 60 }, () => oneOf(1 << 20, (1 << 20) + 8, below(1 << 21), below(1 << 21) - 100, 1 << 21, (1 << 21) + 1, -5));
    const right = ofAny(wide, offsets).map((it, i) => (it !== BAD_ROW && offsets[i + 1] - offsets[i] > 8192 ? 31 : it));
    assert.deepEqual([...checkMany('bech32', { bytes: wide, offsets: Int32Array.from(offsets) })], right);
  }
  const texts = [Uint8Array.of(0x61, 0xff), octets('a12uel5l')];
  assert.deepEqual([...checkMany(null, arrowOf(texts))], [2, 0]);
});

test('what is no column, or not one of these, is no row', () => {
  const bytes = octets('a12uel5l'), offsets = Int32Array.of(0, 8);
  const wrong = [
    [() => checkMany('bech32', 'a12uel5l'), TypeError], [() => checkMany('bech32', bytes), TypeError], [() => checkMany('bech32', null), TypeError],
    [() => checkMany('bech32', 5), TypeError], [() => checkMany('bech32', {}), TypeError], [() => checkMany('bech33', []), TypeError],
    [() => checkMany(undefined, []), TypeError], [() => checkMany('bech32', ['a12uel5l', 5]), TypeError], [() => checkMany('bech32', [bytes]), TypeError],
    [() => checkMany('bech32', ['é', NaN]), TypeError], [() => segwit.encodeMany('bc', [0], ['a']), TypeError],
    [() => checkMany('bech32', { bytes: [1], offsets }), TypeError], [() => checkMany('bech32', { bytes, offsets: [0, 8] }), TypeError],
    [() => checkMany('bech32', { bytes, offsets: Float64Array.of(0, 8) }), TypeError], [() => checkMany('bech32', { bytes, offsets, validity: [1] }), TypeError],
    [() => checkMany('bech32', { bytes, offsets, validity: new Uint8Array() }), RangeError], [() => checkMany('bech32', { bytes, offsets, first: 2 }), RangeError],
    [() => checkMany('bech32', { bytes, offsets, first: 1, count: 1 }), RangeError], [() => checkMany('bech32', { bytes, offsets, count: -1 }), RangeError],
    [() => checkMany('bech32', { bytes, offsets, count: 0.5 }), RangeError],
    [() => segwit.decodeMany([], ''), RangeError], [() => segwit.decodeMany([], 5), TypeError], [() => segwit.encodeMany(5, [], []), TypeError],
    [() => segwit.encodeMany('bc', [0], []), RangeError], [() => segwit.encodeMany('bc', [32], [bytes]), RangeError],
    [() => segwit.encodeMany('bc', [-1], [bytes]), RangeError], [() => segwit.encodeMany('bc', ['0'], [bytes]), RangeError], [() => segwit.encodeMany('bc', Uint8Array.of(32), [bytes]), RangeError],
  ];
  for (const [call, kind] of wrong) assert.throws(call, kind, String(call));
  assert.deepEqual([...checkMany('bech32', { bytes, offsets, first: 1, count: 0 })], []);
  assert.deepEqual([...checkMany('bech32', ['a12uel5l', undefined, null])], [0, NULL_ROW, NULL_ROW]);
  assert.deepEqual([...checkMany('bech32', [null, 'a12uel5l'].values())], [NULL_ROW, 0]);
});

test('each number of a row has a sentence', () => {
  assert.equal(message(0), '');
  assert.equal(message(NULL_ROW), 'The row is null.');
  assert.equal(message(BAD_ROW), 'The offsets of the row do not lie in the column.');
  const numbers = new Set([2, OTHER_HRP, ...checkMany('bech32', TEXTS), ...segwit.decodeMany(TEXTS).numbers]);
  numbers.delete(0);
  assert.ok(numbers.size > 8);
  assert.equal(new Set([...numbers].map(message)).size, numbers.size);
  for (const it of numbers) assert.match(message(it), /^[A-Z].*\.$/);
});

test('a wanted human-readable part that is none is refused', () => {
  for (const texts of [TEXTS, []]) {
    for (const [hrp, code, place] of [['q'.repeat(84), 'HRP_TOO_LONG', 83], ['bé', 'HRP_NOT_ASCII', 1], [' bc', 'HRP_INVALID', 0], ['Bc', 'HRP_MIXED_CASE', 1]]) {
      assert.throws(() => segwit.decodeMany(texts, hrp), { name: 'Refused', code, place });
    }
  }
});
