// Output descriptors (BIP-380).
import test from 'node:test';
import assert from 'node:assert/strict';
import { descriptor } from '../out/package/index.js';
import { withDescriptorSum } from './right-texts.mjs';
import { numbersFrom } from './reference.mjs';

const RIGHT = 'raw(deadbeef)#89f8spxm';
const LONG = 'wpkh(02f9308a019258c31049344f85f89d5229b531c845836f99b08601f113bce036f9)#8zl0zxma';
const below = numbersFrom(13);
const anyText = (length) => Array.from({ length }, () => String.fromCharCode(32 + below(95))).join('');

test('checksums are computed and tested', () => {
  for (const text of [RIGHT, LONG, ...Array.from({ length: 200 }, (_, i) => withDescriptorSum(anyText(7 * i)))]) {
    const end = text.lastIndexOf('#');
    assert.equal(descriptor.checksum(text.slice(0, end)), text.slice(end + 1));
    assert.equal(descriptor.check(text), text.slice(0, end));
  }
});

const alone = (text, right, made) => {
  const found = descriptor.mend(text).filter((it) => it.text === right);
  assert.deepEqual(found, [{ text: right, ...made }]);
};

test('one mistake is mended', () => {
  for (const right of [RIGHT, LONG]) {
    for (let place = 0; place < right.length - 1; place++) {
      const it = right[place], front = right.slice(0, place), behind = right.slice(place + 1), other = it === 'x' ? 'y' : 'x';
      alone(front + other + behind, right, { kind: 'changed', places: [place], from: other, to: it });
      if (it === behind[0]) continue;
      alone(front + behind, right, { kind: 'putIn', places: [place], from: '', to: it });
      const pair = behind[0] + it;
      alone(front + pair + behind.slice(1), right, { kind: 'swapped', places: [place, place + 1], from: pair, to: it + behind[0] });
      if (other !== behind[0]) alone(front + it + other + behind, right, { kind: 'leftOut', places: [place + 1], from: other, to: '' });
    }
  }
  // Two changed characters are more than one mistake.
  assert.deepEqual(descriptor.mend('sawqdeadbeef)#89f8spxm').filter(({ text }) => text === RIGHT), []);
  assert.deepEqual(descriptor.mend('raw(deedbeef)#89f8spxm', 0).filter(({ text }) => text === RIGHT), []);
  alone('raw(d\u{1f600}adbeef)#89f8spxm', RIGHT, { kind: 'changed', places: [5], from: '\u{1f600}', to: 'e' });
});

const aloneByTwo = (right, places, others) => {
  const wrong = Array.from(right), to = places.map((place) => right[place]).join('');
  places.forEach((place, i) => { wrong[place] = others[i]; });
  assert.deepEqual(descriptor.mendTwo(wrong.join('')), [{ text: right, kind: 'changed', places, from: others.join(''), to }]);
};

test('two changed characters are mended', () => {
  for (let first = 0; first < RIGHT.length; first += 3) {
    for (let second = first + 1; second < RIGHT.length; second += 5) {
      aloneByTwo(RIGHT, [first, second], [RIGHT[first] === 'x' ? 'y' : 'x', RIGHT[second] === 'q' ? 'p' : 'q']);
    }
  }
  aloneByTwo(LONG, [0, LONG.length - 1], ['W', 'q']);
  aloneByTwo(LONG, [LONG.length - 9, LONG.length - 1], [' ', '#']);
  aloneByTwo(RIGHT, [5, 6], ['\u{e9}', '\u{1f600}']);
  for (const text of [RIGHT, 'xaw(deadbeef)#89f8spxm', '', '#', 'raw(deadbeef)']) assert.deepEqual(descriptor.mendTwo(text), []);
  assert.deepEqual(descriptor.mendTwo('x'.repeat(1400)), []);
  assert.throws(() => descriptor.mendTwo('x'.repeat(1401)), { name: 'Refused', code: 'DESCRIPTOR_TOO_LONG', number: 89 });
});

test('values of another type', () => {
  for (const call of [() => descriptor.check(5), () => descriptor.checksum(), () => descriptor.mend(null), () => descriptor.mendTwo(5)]) {
    assert.throws(call, TypeError);
  }
  for (const changed of [2, -1, 0.5, '1']) assert.throws(() => descriptor.mend(RIGHT, changed), RangeError);
});
