// Texts and addresses of every size, written and read.
import test from 'node:test';
import assert from 'node:assert/strict';
import { check, decode, decodeElements, decodeStrict, encode, encodeElements, fromWords, segwit, toWords } from '../out/package/index.js';
import { ALPHABET, accepts, dataOf, numbersFrom } from './reference.mjs';

const below = numbersFrom(5);
const random = (length) => Uint8Array.from({ length }, () => below(256));

test('texts of every length are written and read', () => {
  for (const checksum of ['bech32', 'bech32m']) {
    for (let length = 0; length <= 634; length++) {
      const bytes = random(length), text = encode(checksum, 'a', bytes);
      assert.ok(accepts(checksum, text));
      assert.equal(text.length, 8 + Math.ceil((8 * length) / 5));
      assert.deepEqual(decode(text), { checksum, hrp: 'a', bytes });
      assert.equal(check(checksum, text).data, text.slice(2, -6));
    }
  }
});

test('human-readable parts of every length are written and read', () => {
  for (let length = 1; length <= 83; length++) {
    const hrp = Array.from({ length }, () => String.fromCharCode(33 + below(94))).join('');
    const text = encode('bech32m', hrp.toUpperCase(), Uint8Array.of(7));
    assert.deepEqual(decode(text.toUpperCase()), { checksum: 'bech32m', hrp: hrp.toUpperCase(), bytes: Uint8Array.of(7) });
    assert.equal(decode(text).hrp, hrp.toLowerCase());
  }
});

test('addresses of every version and length are written and read', () => {
  for (let version = 0; version <= 16; version++) {
    for (const length of version === 0 ? [20, 32] : Array.from({ length: 39 }, (_, i) => 2 + i)) {
      const program = random(length), text = segwit.encode('bc', version, program);
      assert.ok(accepts(version === 0 ? 'bech32' : 'bech32m', text));
      assert.deepEqual(segwit.decode(text), { hrp: 'bc', version, program });
    }
  }
});
test('an address of the network that is wanted is read, in either case', () => {
  const program = random(20), text = segwit.encode('bc', 0, program);
  for (const [given, hrp] of [[text, 'bc'], [text, 'BC'], [text.toUpperCase(), 'bc'], [text, null], [text, undefined]]) {
    assert.deepEqual(segwit.decode(given, hrp), { hrp: given.slice(0, 2), version: 0, program });
  }
  for (const hrp of ['tb', 'bcrt', 'b', 'c']) assert.throws(() => segwit.decode(text, hrp), { code: 'OTHER_HRP', place: null });
  for (const hrp of [5, {}, ['bc']]) assert.throws(() => segwit.decode(text, hrp), TypeError);
});

test('bytes and elements are regrouped, of any number', () => {
  const values = (data) => Uint8Array.from(data, (it) => ALPHABET.indexOf(it));
  for (const length of [...Array(60).keys(), 4399, 4400, 4401, 4405, 8800, 13203]) {
    const bytes = random(length), words = toWords(bytes);
    assert.deepEqual(words, values(dataOf(bytes)), `${length}`);
    assert.deepEqual([fromWords(words), fromWords([...words])], [bytes, bytes], `${length}`);
    const unused = 5 * words.length - 8 * length;
    if (unused > 0) assert.throws(() => fromWords([...words.slice(0, -1), words.at(-1) | 1]), { code: 'PADDING_NOT_ZERO', place: words.length - 1 });
    assert.equal(words.length % 8 === 0, unused === 0);
  }
  for (const given of ['qpzry', [256], [-1], [0.5], ['0'], 5, null]) assert.throws(() => fromWords(given), TypeError, JSON.stringify(given));
  for (const given of ['qpzry', [1], null]) assert.throws(() => toWords(given), TypeError);
});

const shortOf = { bech32: 'bech32', bech32m: 'bech32m', longBech32: 'bech32', longBech32m: 'bech32m' };

test('elements are written and read, and bytes of one spelling', () => {
  for (const [checksum, short] of Object.entries(shortOf)) {
    for (let length = 0; length <= 1015; length++) {
      const elements = random(length).map((it) => it & 31), text = encodeElements(checksum, 'a', elements);
      assert.ok(accepts(short, text));
      assert.deepEqual(decodeElements(checksum, text.toUpperCase()), { hrp: 'A', elements });
      const { bytes } = decode(text), isOnly = encode(checksum, 'a', bytes) === text;
      if (isOnly) assert.deepEqual(decodeStrict(checksum, text), { hrp: 'a', bytes });
      else assert.throws(() => decodeStrict(checksum, text), { code: (5 * length) % 8 > 4 ? 'PADDING_TOO_LONG' : 'PADDING_NOT_ZERO' });
    }
  }
});

test('long texts are written and read', () => {
  for (const checksum of ['longBech32', 'longBech32m']) {
    for (const length of [0, 634, 635, 1000, 2560, 4425]) {
      const bytes = random(length), text = encode(checksum, 'a', bytes);
      assert.ok(accepts(shortOf[checksum], text));
      assert.deepEqual(decodeStrict(checksum, text), { hrp: 'a', bytes });
      assert.equal(check(checksum, text).data, text.slice(2, -6));
      if (text.length > 1023) assert.throws(() => decode(text), { code: 'TEXT_TOO_LONG', place: 1023 });
    }
  }
});

test('what a call returns is no part of the memory of the module', () => {
  const { bytes } = decode(encode('bech32', 'a', Uint8Array.of(1, 2, 3)));
  decode(encode('bech32', 'b', Uint8Array.of(4, 5, 6)));
  assert.deepEqual(bytes, Uint8Array.of(1, 2, 3));
});
