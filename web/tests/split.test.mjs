// Secrets split into shares and recovered: the vector of BIP-93, all subsets of small sets, and each size; as strings and as bytes.
import test from 'node:test';
import assert from 'node:assert/strict';
import { Refused, codex32 } from '../out/package/index.js';
import { ALPHABET } from './reference.mjs';
import { CASH } from './sets.mjs';

const INDICES = 'acdefghjklmnpqrtuvwxyz023456789';
const BYTES = Uint8Array.from(Buffer.from('ffeeddccbbaa99887766554433221100', 'hex'));
const octets = (text) => new TextEncoder().encode(text);
const textOf = (bytes) => Buffer.from(bytes).toString('latin1');

// The bytes of characters, with three bits above that are left out.
const randomOf = (characters, above = 0) => Uint8Array.from(characters, (it) => ALPHABET.indexOf(it) | (above << 5));
const charactersOf = (bytes) => Array.from(bytes, (byte) => ALPHABET[byte & 31]).join('');

const subsetsOf = (shares) => Array.from({ length: 2 ** shares.length }, (_, bits) => shares.filter((_, i) => (bits >> i) & 1));

test('splits as the standard does', () => {
  const drawn = CASH.a.slice(9, 35) + CASH.c.slice(9, 35), wanted = Array.from('acdef', (index) => CASH[index]);
  for (let above = 0; above < 8; above++) {
    const random = randomOf(drawn, above);
    assert.deepEqual(codex32.split(BYTES, 3, 5, 'CASH', { random }), wanted);
    const asBytes = codex32.split(BYTES, 3, 5, 'cash', { random, into: Uint8Array });
    assert.ok(asBytes.every((it) => it instanceof Uint8Array));
    assert.deepEqual(asBytes.map(textOf), wanted);
  }
});

test('any shares as many as the threshold recover the secret, and fewer do not', () => {
  for (let threshold = 2; threshold <= 9; threshold++) {
    for (let count = threshold; count <= Math.min(10, threshold + 3); count++) {
      const secret = Uint8Array.from({ length: 16 }, (_, i) => i * threshold), shares = codex32.split(secret, threshold, count);
      assert.equal(shares.map((text) => text[8]).join(''), INDICES.slice(0, count));
      assert.ok(shares.every((text) => text.slice(0, 8) === `ms1${threshold}${shares[0].slice(4, 8)}`));
      for (const subset of subsetsOf(shares)) {
        if (subset.length >= threshold) assert.deepEqual(codex32.recover(subset), secret);
        else assert.throws(() => codex32.recover(subset), (error) => error instanceof Refused && error.code === 'TOO_FEW_SHARES');
      }
    }
  }
});

test('each size', () => {
  for (let size = 0; size < 100; size++) {
    const secret = Uint8Array.from({ length: size }, (_, i) => 3 * i + 1);
    if (!((size >= 16 && size <= 44) || size === 63 || size === 64)) {
      assert.throws(() => codex32.split(secret, 2, 31), ({ code }) => code === 'BAD_SIZE');
      continue;
    }
    const shares = codex32.split(secret, 2, 31);
    assert.equal(shares.map((text) => text[8]).join(''), INDICES);
    shares.forEach((text, i) => assert.deepEqual(codex32.recover([text, shares[(i + 7) % 31]]), secret));
    assert.deepEqual(codex32.recover(shares), secret);
  }
});

test('the characters that are drawn are the random bytes', () => {
  for (const [size, threshold] of [[16, 2], [20, 9], [33, 4], [44, 3], [63, 9], [64, 5]]) {
    const length = Math.ceil((8 * size) / 5), secret = new Uint8Array(size).fill(0x5a);
    const random = Uint8Array.from({ length: (threshold - 1) * length }, (_, i) => i * i + 3);
    const shares = codex32.split(secret, threshold, 9, 'test', { random });
    assert.equal(shares.slice(0, threshold - 1).map((text) => text.slice(9, 9 + length)).join(''), charactersOf(random));
    // The secret's own string is one of the set.
    const own = codex32.encode(threshold, 'test', 's', secret);
    assert.equal(codex32.derive(shares, 's'), own);
    assert.deepEqual(codex32.recover([own, ...shares.slice(1 - threshold)]), secret);
  }
});

test('each call draws anew, from crypto.getRandomValues', () => {
  const shares = Array.from({ length: 50 }, () => codex32.split(BYTES, 2, 2)[0]);
  assert.equal(new Set(shares.map((text) => text.slice(9, 35))).size, 50);
  assert.equal(new Set(shares.flatMap((text) => [...text.slice(9, 35)])).size, 32);
  // That two of fifty identifiers are the same has a chance of 1 in 800.
  assert.ok(new Set(shares.map((text) => text.slice(4, 8))).size > 47);

  const { getRandomValues } = crypto, sizes = [];
  crypto.getRandomValues = (array) => {
    sizes.push(array.length);
    return array.map((_, i) => (array[i] = 0xe0 | i));
  };
  try {
    assert.equal(codex32.split(BYTES, 2, 2, 'test')[0].slice(0, 35), `ms12testa${ALPHABET.slice(0, 26)}`);
    assert.equal(codex32.split(BYTES, 2, 2)[0].slice(0, 35), `ms12${ALPHABET.slice(0, 4)}a${ALPHABET.slice(0, 26)}`);
  } finally {
    delete crypto.getRandomValues;
  }
  assert.deepEqual(sizes, [26, 26, 4]);
  assert.equal(crypto.getRandomValues, getRandomValues);
});

test('texts are strings or bytes, and what is given stays', () => {
  const given = Array.from('acd', (index) => octets(CASH[index])), before = given.map(textOf);
  assert.deepEqual(codex32.recover(given), BYTES);
  assert.deepEqual(codex32.recover([CASH.a, given[1], CASH.d.toUpperCase()]), BYTES);
  assert.equal(codex32.derive(given, 's'), CASH.s);
  assert.equal(codex32.derive(given, 's', { into: String }), CASH.s);
  assert.equal(textOf(codex32.derive(given, 's', { into: Uint8Array })), CASH.s);
  assert.equal(textOf(codex32.derive([CASH.a, CASH.c, CASH.d], 'E', { into: Uint8Array })), CASH.e);
  assert.equal(textOf(codex32.encode(3, 'cash', 's', BYTES, { into: Uint8Array })), CASH.s);
  assert.equal(textOf(codex32.encodePayload(3, 'cash', 's', octets(CASH.s.slice(9, 35)), { into: Uint8Array })), CASH.s);
  assert.equal(codex32.encodePayload(3, 'cash', 's', octets(CASH.s.slice(9, 35).toUpperCase())), CASH.s);
  assert.deepEqual(codex32.share(given[0]), codex32.share(CASH.a));
  assert.deepEqual(given.map(textOf), before);
  // What is returned is no part of the module's memory.
  const made = codex32.split(BYTES, 2, 2, null, { into: Uint8Array }), secret = codex32.recover(made);
  assert.ok([...made, secret].every(({ buffer, byteLength }) => buffer.byteLength === byteLength));
  assert.deepEqual(secret, BYTES);
});
