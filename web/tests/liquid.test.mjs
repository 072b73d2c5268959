// Confidential addresses of Liquid.
import test from 'node:test';
import assert from 'node:assert/strict';
import { liquid } from '../out/package/index.js';
import { blechText } from './right-texts.mjs';
import { ALPHABET, numbersFrom } from './reference.mjs';

const ADDRESS = 'lq1qqf8er278e6nyvuwtgf39e6ewvdcnjupn9a86rzpx655y5lhkt0walu3djf9cklkxd3ryld97hu8h3xepw7sh2rlu7q45dcew5';
const below = numbersFrom(11);
const random = (length) => Uint8Array.from({ length }, () => below(256));
const at = (text, changes) => changes.reduce((it, [place, c]) => it.slice(0, place) + c + it.slice(place + 1), text);

test('they are written and read', () => {
  const { hrp, version, key, program } = liquid.decode(ADDRESS);
  assert.deepEqual([hrp, version, key.length, program.length], ['lq', 0, 33, 20]);
  assert.equal(liquid.encode(hrp, version, key, program), ADDRESS);
  assert.equal(liquid.decode(ADDRESS.toUpperCase()).hrp, 'LQ');
  for (let i = 0; i < 200; i++) {
    const given = { hrp: ['lq', 'el', 'tlq'][i % 3], version: 0, key: random(33), program: random(i % 2 ? 20 : 32) };
    const text = liquid.encode(given.hrp, 0, given.key, given.program);
    assert.equal(text, blechText('blech32', given.hrp, text.slice(text.indexOf('1') + 1, -12)));
    assert.deepEqual(liquid.decode(text), given);
  }
});

test('up to three wrong characters, or six that cannot be read, are mended', () => {
  for (let i = 0; i < 100; i++) {
    const places = new Set(), errors = i % 4, unread = below(7 - 2 * errors);
    while (places.size < errors + unread) places.add(3 + below(ADDRESS.length - 3));
    const all = [...places], other = (place) => ALPHABET[(ALPHABET.indexOf(ADDRESS[place]) + 1 + below(31)) % 32];
    const text = at(ADDRESS, all.map((place, n) => [place, n < unread ? '?' : other(place)]));
    const changes = all.map((place) => ({ place, from: text[place], to: ADDRESS[place] })).sort((a, b) => a.place - b.place);
    assert.deepEqual(liquid.correct(text), { text: ADDRESS, changes });
    assert.equal(liquid.correct(text.toUpperCase()).text, ADDRESS.toUpperCase());
  }
  assert.equal(liquid.nearest(at(ADDRESS, [[10, 'q'], [50, '3'], [90, 'y']]))[0].text, ADDRESS);
  assert.equal(liquid.correct(at(ADDRESS, [[10, 'q'], [50, '3'], [70, 'q'], [90, 'y']])), null);
  assert.equal(liquid.correct(`${ADDRESS.slice(0, -7)}???????`), null);
});

test('as many errors are looked for as one correction has, where none are given', () => {
  const wrong = [[10, 'q'], [50, '3'], [90, 'y']], unread = [5, 17, 29, 41, 53, 65, 77, 85].map((place) => [place, '?']);
  for (const [known, errors] of [[0, 3], [1, 2], [2, 2], [3, 1], [4, 1], [5, 0], [6, 0]]) {
    const text = at(ADDRESS, [...unread.slice(0, known), ...wrong.slice(0, errors)]);
    assert.deepEqual(liquid.nearest(text).map((it) => it.text), [ADDRESS], `${known} ?`);
    if (errors < 3) assert.deepEqual(liquid.nearest(at(text, [wrong[errors]])), [], `${known} ? and one error more`);
    // Twice the errors and those that are known are seven at most.
    const most = 7 - known >> 1;
    assert.ok(liquid.nearest(text, [], most).some((it) => it.text === ADDRESS));
    if (most < 3) assert.throws(() => liquid.nearest(text, [], most + 1), RangeError);
  }
  for (const known of [7, 8]) {
    for (const errors of [undefined, 0, 3]) assert.deepEqual(liquid.nearest(at(ADDRESS, unread.slice(0, known)), [], errors), []);
  }
});

test('what is refused', () => {
  const key = new Uint8Array(33);
  for (const [call, code, place] of [
    [() => liquid.decode(at(ADDRESS, [[20, 'q']])), 'WRONG_CHECKSUM', null],
    [() => liquid.decode(at(ADDRESS, [[3, 'p']])), 'UNSUPPORTED_VERSION', 3],
    [() => liquid.decode(at(ADDRESS, [[3, '3']])), 'BAD_VERSION', 3],
    [() => liquid.decode(at(ADDRESS, [[20, 'b']])), 'INVALID_CHARACTER', 20],
    [() => liquid.decode('lq1'), 'NO_DATA', 2],
    [() => liquid.decode(''), 'NO_SEPARATOR', null],
    [() => liquid.decode(blechText('blech32', 'lq', `q${'q'.repeat(40)}`)), 'NO_BLINDING_KEY', null],
    [() => liquid.correct('lq1qb'), 'INVALID_CHARACTER', 4],
    [() => liquid.encode('lq', 1, key, new Uint8Array(32)), 'UNSUPPORTED_VERSION', null],
    [() => liquid.encode('lq', 17, key, new Uint8Array(32)), 'ENCODED_BAD_VERSION', null],
    [() => liquid.encode('lq', 0, key, new Uint8Array(21)), 'PROGRAM_NOT_V0', null],
    [() => liquid.encode('', 0, key, new Uint8Array(20)), 'HRP_EMPTY', 0],
  ]) assert.throws(call, { name: 'Refused', code, place }, String(call));
  assert.throws(() => liquid.encode('lq', 0, new Uint8Array(32), new Uint8Array(20)), RangeError);
  assert.throws(() => liquid.nearest(ADDRESS, [], 4), RangeError);
  assert.throws(() => liquid.decode(5), TypeError);
});
