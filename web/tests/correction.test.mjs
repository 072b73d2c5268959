// Corrections against brute force: every single change of a text is tried by the checksum as the standard defines it.
import test from 'node:test';
import assert from 'node:assert/strict';
import { ALPHABET as exported, codex32, correct, encode, nearEdits, nearest, segwit } from '../out/package/index.js';
import { ALPHABET, accepts, editsOf, acceptsCodex32, acceptsLongCodex32, added, changedAt, changedOnce, effectOf, numbersFrom, residueOf } from './reference.mjs';

const TEXTS = [
  ['bech32', 'a12uel5l'],
  ['bech32', 'bc1qw508d6qejxtdg4y5r3zarvary0c5xw7kv8f3t4'],
  ['bech32m', 'a1lqfn3a'],
  ['bech32m', 'bc1p4w46h2at4w46h2at4w46h2at4w46h2at5kreae'],
  ['bech32m', 'tb1pqqqqp399et2xygdj5xreqhjjvcmzhxw4aywxecjdzew6hylgvsesf3hn0c'],
];

test('the texts of these tests are right', () => {
  for (const [checksum, text] of TEXTS) assert.ok(accepts(checksum, text), text);
});

test('each single error is mended', (t) => {
  let count = 0;
  for (const [checksum, text] of TEXTS) {
    for (const damaged of changedOnce(text)) {
      count++;
      const { text: mended, changes } = correct(checksum, damaged);
      const place = Array.from(text).findIndex((c, i) => c !== damaged[i]);
      assert.deepEqual([mended, changes], [text, [{ place, from: damaged[place], to: text[place] }]]);
    }
  }
  t.diagnostic(`${count} texts`);
});

// The texts that a checksum accepts among those that differ in one place.
const byBruteForce = (checksum, damaged) => [...changedOnce(damaged)].filter((text) => accepts(checksum, text));

const agrees = (checksum, damaged) => {
  const found = byBruteForce(checksum, damaged);
  assert.ok(found.length <= 1, damaged);
  assert.equal(correct(checksum, damaged)?.text ?? null, found[0] ?? null, damaged);
  return found.length;
};

test('each double error of a short text is mended as brute force does', (t) => {
  const [checksum, text] = TEXTS[0];
  let count = 0, mended = 0;
  for (const once of changedOnce(text)) {
    for (const twice of changedOnce(once)) {
      if (accepts(checksum, twice)) continue;
      count++;
      if (count % 7 === 0) mended += agrees(checksum, twice);
    }
  }
  t.diagnostic(`${count} texts, of which every seventh was tried; ${mended} of these have an answer`);
});

test('double and triple errors of addresses are mended as brute force does', (t) => {
  const below = numbersFrom(1);
  let count = 0, mended = 0;
  for (const [checksum, text] of TEXTS.slice(1)) {
    for (const errors of [2, 3]) {
      for (let i = 0; i < 40; i++) {
        const damaged = changedAt(text, errors, below);
        count++;
        mended += agrees(checksum, damaged);
      }
    }
  }
  t.diagnostic(`${count} texts, ${mended} of which have an answer`);
});

test('three characters that cannot be read are found, and one of them with one error', () => {
  const below = numbersFrom(2);
  for (const [checksum, text] of TEXTS) {
    const first = text.lastIndexOf('1') + 1;
    for (let i = 0; i < 300; i++) {
      const places = [0, 1, 2].map(() => first + below(text.length - first));
      const filled = Array.from(text, (c, place) => (places.includes(place) ? ALPHABET[below(32)] : c)).join('');
      assert.equal(correct(checksum, filled, places).text, text);
      const one = changedAt(text, 1, below), place = places[0];
      const damaged = `${one.slice(0, place)}q${one.slice(place + 1)}`;
      assert.equal(correct(checksum, damaged, [place]).text, text);
    }
  }
});

// All texts with two changes at most that a checksum accepts, by what each change adds to the remainder.
const nearBySums = (checksum, damaged) => {
  const length = damaged.length - damaged.lastIndexOf('1') - 1, residue = residueOf(checksum, damaged);
  const changes = [];
  for (let location = 0; location < length; location++) {
    for (let value = 1; value < 32; value++) changes.push({ location, value, effect: effectOf(location, value) });
  }
  const found = residue === 0 ? [damaged] : [], byEffect = new Map(changes.map((change) => [change.effect, change]));
  for (const one of changes) {
    if (one.effect === residue) found.push(added(damaged, one));
    const other = byEffect.get(one.effect ^ residue);
    if (other && other.location < one.location) found.push(added(added(damaged, one), other));
  }
  return found;
};

test('the nearest texts are those that sums of two changes give', (t) => {
  const below = numbersFrom(5);
  let answered = 0;
  for (const [checksum, text] of TEXTS) {
    assert.deepEqual(nearest(checksum, text), [{ text, changes: [] }]);
    for (const errors of [1, 2, 2, 2, 3, 3, 3]) {
      const damaged = changedAt(text, errors, below);
      const found = nearest(checksum, damaged).map((it) => it.text);
      assert.deepEqual(found, nearBySums(checksum, damaged), damaged);
      if (errors < 3) assert.deepEqual(found, [text]);
      else assert.ok(!found.includes(text));
      answered += found.length;
    }
  }
  t.diagnostic(`${answered} of ${7 * TEXTS.length} texts have an answer`);
});

test('all texts of three damaged characters are listed, in the order of their last change', () => {
  const [checksum, text] = TEXTS[0];
  const places = [3, 4, 5, 6];
  assert.deepEqual(nearest(checksum, text, places, 0), []);
  assert.deepEqual(nearest(checksum, 'a12qqq5l', [3, 4, 5], 0).map((it) => it.text), [text]);
  assert.throws(() => nearest(checksum, text, [], 3), RangeError);
});

test('near texts that fill more room than an address needs are listed', (t) => {
  const below = numbersFrom(7), place = 5;
  const damaged = changedAt(encode('bech32m', 'a', new Uint8Array(634).fill(5)), 4, below);
  const found = nearest('bech32m', damaged, [place], 2).map((it) => it.text);
  const wanted = Array.from(ALPHABET, (c) => nearBySums('bech32m', damaged.slice(0, place) + c + damaged.slice(place + 1))).flat();
  assert.deepEqual(found.toSorted(), wanted.filter((it, i) => wanted.indexOf(it) === i).sort());
  t.diagnostic(`${found.length} texts of ${damaged.length} characters`);
});

// All other texts that one edit makes of one and that a checksum accepts, every edit tried.
const nearEditsByTrying = (checksum, damaged) => {
  const found = new Map();
  for (const { text, ...edit } of editsOf(damaged)) {
    if (text !== damaged && text.length <= 1023 && !found.has(text) && accepts(checksum, text)) found.set(text, { text, edit });
  }
  return [...found.values()];
};

const inUpperCase = ({ text, edit }) =>
  ({ text: text.toUpperCase(), edit: { ...edit, characters: edit.characters.toUpperCase() } });

test('a character missing, one too many, and two swapped are found, at each place, as by trying each edit', (t) => {
  let count = 0, byTrying = 0;
  for (const [checksum, text] of TEXTS) {
    // Of the characters that may be put in those that double the one before, and some others.
    const edits = [...editsOf(text)].filter(({ kind, place, characters }, i) => kind !== 'putIn' || characters === text[place - 1] || i % 16 === 0);
    for (const [i, damaged] of [text, ...new Set(edits.map((it) => it.text))].entries()) {
      const found = nearEdits(checksum, damaged);
      count++;
      if (text.length < 20 || i % 8 === 0) {
        assert.deepEqual(found, nearEditsByTrying(checksum, damaged), damaged);
        byTrying++;
      }
      assert.equal(found.some((it) => it.text === text), damaged !== text, damaged);
      assert.deepEqual(nearEdits(checksum, damaged.toUpperCase()), found.map(inUpperCase));
    }
  }
  t.diagnostic(`${count} texts, for ${byTrying} of which each edit was tried`);
});

test('what one edit makes of a text that ends in p', () => {
  assert.deepEqual(nearEdits('bech32', 'ii2134hk2xmat79tqp'), [
    { text: 'ii2134hk2xmat79tp', edit: { kind: 'leftOut', place: 16, characters: 'q' } },
    { text: 'ii2134hk2xmat79tqqp', edit: { kind: 'putIn', place: 17, characters: 'q' } },
  ]);
  assert.deepEqual(nearEdits('bech32', 'a12uel5'), [{ text: 'a12uel5l', edit: { kind: 'putIn', place: 7, characters: 'l' } }]);
  assert.deepEqual([nearEdits('bech32', 'bc1'), nearEdits('bech32m', `a1${'q'.repeat(2000)}`)], [[], []]);
});

test('each `?` behind the last `1` is a character that cannot be read', () => {
  const damagedAt = (text, places, by) => Array.from(text, (c, place) => (places.includes(place) ? by : c)).join('');
  for (const [checksum, text] of TEXTS) {
    const first = text.lastIndexOf('1') + 1, last = text.length - 1;
    for (const places of [[last], [first, last - 1], [first + 1, first + 2, last]]) {
      const damaged = damagedAt(text, places, '?'), wanted = { text, changes: places.map((place) => ({ place, from: '?', to: text[place] })) };
      assert.deepEqual(correct(checksum, damaged), wanted);
      assert.deepEqual(nearest(checksum, damaged, [], 0), [wanted]);
      assert.equal(correct(checksum, damaged.toUpperCase()).text, text.toUpperCase());
      // It is the same as a place that is given, where some other character stands.
      const textsOf = (found) => found.map((it) => it.text);
      assert.deepEqual(textsOf(nearest(checksum, damaged)), textsOf(nearest(checksum, damagedAt(text, places, 'q'), places)));
      assert.deepEqual(correct(checksum, damaged, places), wanted);
    }
    const damaged = damagedAt(damagedAt(text, [first + 2], '?'), [last], text[last] === 'q' ? 'p' : 'q');
    assert.equal(correct(checksum, damaged).text, text);
    assert.equal(correct(checksum, damaged, [last]).text, text);
  }
  assert.equal(correct('bech32', '?1ezyf?l').text, '?1ezyfcl');
  assert.deepEqual(correct('bech32', '?1ezyfcl'), { text: '?1ezyfcl', changes: [] });
});

test('a `?` that is read right is one of three at most', () => {
  const zeros = encode('bech32', 'bc', Uint8Array.from({ length: 25 }, (_, i) => [0x7b, 0xde, 0xf7, 0xbd, 0xef][i % 5]));
  assert.equal(zeros.slice(3, 8), '00000');
  for (let count = 1; count < 6; count++) {
    const damaged = zeros.slice(0, 3) + '?'.repeat(count) + zeros.slice(3 + count);
    const changes = Array.from({ length: count }, (_, i) => ({ place: 3 + i, from: '?', to: '0' }));
    assert.deepEqual(correct('bech32', damaged), count > 3 ? null : { text: zeros, changes });
    assert.deepEqual(nearest('bech32', damaged, [], 0), count > 3 ? [] : [{ text: zeros, changes }]);
    assert.equal(correct('bech32', damaged, [1]), null);
  }
});

test('a text with `?` that is refused is told as it was given', () => {
  const refusals = [['a12?e?bl', 'INVALID_CHARACTER', 6], ['a12u?L5l', 'MIXED_CASE', 5], ['?a', 'INVALID_CHARACTER', 0], ['a1q??', 'NO_CHECKSUM', 1]];
  for (const [text, code, place] of refusals) {
    for (const call of [correct, nearest]) assert.throws(() => call('bech32', text), { name: 'Refused', code, place }, text);
  }
  assert.throws(() => nearEdits('bech32', 'a12u?l5l'), { code: 'INVALID_CHARACTER', place: 4 });
});

// One of version 0 with 20 bytes, and one of version 1 with 32 (BIP-173, BIP-350).
const IN_USE = ['bc1qw508d6qejxtdg4y5r3zarvary0c5xw7kv8f3t4', 'bc1p0xlxvlhemja6c4dqv22uapctqupfhlxm9h8z3k2e72q4k9hcz7vqzk5jj0'];

test('addresses are suggested', () => {
  for (const right of IN_USE) {
    const made = (text, changes, edit = null) => [{ text, changes, edit }];
    assert.deepEqual(segwit.suggest(right, 'bc'), made(right, []));
    assert.deepEqual(segwit.suggest(right.toUpperCase(), 'BC'), made(right.toUpperCase(), []));
    assert.deepEqual(segwit.suggest(right, 'tb'), []);
    for (const [places, other] of [[[10, 20], 'y'], [[10, 20, 30], '?'], [[11], 'y'], [[12], '?']]) {
      const text = Array.from(right, (c, place) => (places.includes(place) ? other : c)).join('');
      const changes = places.filter((place) => text[place] !== right[place]).map((place) => ({ place, from: text[place], to: right[place] }));
      assert.deepEqual(segwit.suggest(text, 'bc'), made(right, changes));
    }
    const [missing] = segwit.suggest(right.slice(0, 20) + right.slice(21), 'bc');
    assert.deepEqual([missing.text, missing.changes, missing.edit.kind, missing.edit.characters], [right, [], 'putIn', right[20]]);
  }
  for (const text of ['a12uel5l', 'q1'.repeat(46), 'q'.repeat(1 << 20)]) assert.deepEqual(segwit.suggest(text, 'bc'), []);
  for (const [text, hrp, code, place] of [['x1b?', '', 'HRP_EMPTY', 0], ['x1?b?', 'bc', 'INVALID_CHARACTER', 3], ['qq', 'bc', 'NO_SEPARATOR', null]]) {
    assert.throws(() => segwit.suggest(text, hrp), { name: 'Refused', code, place });
  }
  assert.throws(() => segwit.suggest('bc1'), TypeError);
});

test('suggestions are of forms in use, but for the text itself', () => {
  for (const [version, length] of [[0, 20], [0, 32], [1, 20], [1, 31], [1, 32], [1, 33], [2, 32], [16, 2]]) {
    const right = segwit.encode('bc', version, new Uint8Array(length).fill(9 * version + length)), at = right.length - 3;
    const wrong = `${right.slice(0, at)}${right[at] === 'q' ? 'p' : 'q'}${right.slice(at + 1)}`;
    assert.deepEqual(segwit.suggest(right, 'bc').map(({ text }) => text), [right]);
    const isInUse = version === 0 || (version === 1 && length === 32);
    for (const text of [wrong, right.slice(0, at) + right.slice(at + 1), `${right.slice(0, at)}?${right.slice(at + 1)}`]) {
      assert.deepEqual(segwit.suggest(text, 'bc').map((it) => it.text), isInUse ? [right] : [], text);
    }
  }
});

test('the alphabet is that of the texts', () => {
  assert.equal(exported, ALPHABET);
});

test('places are told in rising order, with those that were right after all', () => {
  const text = 'a12uel5l';
  assert.deepEqual(correct('bech32', 'a12uel5q', [4]).changes, [{ place: 4, from: 'e', to: 'e' }, { place: 7, from: 'q', to: 'l' }]);
  assert.deepEqual(correct('bech32', text, [4]), { text, changes: [] });
  assert.deepEqual(correct('bech32', text.toUpperCase()), { text: text.toUpperCase(), changes: [] });
  assert.equal(correct('bech32', 'a12uel5q', [0]), null);
  assert.equal(correct('bech32', 'a12uel5q', [2, 3, 4, 5]), null);
  assert.throws(() => correct('bech32', text, [8]), RangeError);
});

const STRING = 'ms10testsxxxxxxxxxxxxxxxxxxxxxxxxxx4nzvca9cmczlw';

test('each single error of a codex32 string is mended, and up to four, and up to eight that cannot be read', (t) => {
  assert.ok(acceptsCodex32(STRING));
  let count = 0;
  for (const damaged of changedOnce(STRING)) {
    count++;
    assert.equal(codex32.propose(damaged).text, STRING);
  }
  const below = numbersFrom(3);
  for (let i = 0; i < 500; i++) {
    const unread = below(9), errors = below(1 + Math.floor((8 - unread) / 2));
    const places = new Set();
    while (places.size < unread) places.add(3 + below(STRING.length - 3));
    const damaged = Array.from(changedAt(STRING, errors, below), (c, place) => (places.has(place) ? '?' : c)).join('');
    count++;
    assert.equal(codex32.propose(damaged).text, STRING, damaged);
  }
  for (let i = 0; i < 200; i++) {
    const proposal = codex32.propose(changedAt(STRING, 5, below));
    count++;
    if (proposal) assert.ok(acceptsCodex32(proposal.text) && proposal.text !== STRING && proposal.changes.length <= 4);
  }
  t.diagnostic(`${count} strings`);
});

const LONG_STRING = 'ms100c8vsm32zxfguhpchtlupzry9x8gf2tvdw0s3jn54khce6mua7lqpzygsfjd6an074rxvcemlh8wu3tk925acdefghjklmnpqrstuvwxy06fhpv80undvarhrak';

test('what is found has the case of the text given', () => {
  const at = (text, ...places) => Array.from(text, (c, i) => (places.includes(i) ? 'q' : c)).join('');
  for (const [checksum, text] of TEXTS) {
    for (const given of [text, text.toUpperCase()]) {
      const isUpper = given !== text, place = text.length - 2, damaged = at(text, place), typed = isUpper ? damaged.toUpperCase() : damaged;
      const changes = [{ place, from: typed[place], to: given[place] }];
      assert.deepEqual(correct(checksum, typed), { text: given, changes });
      assert.deepEqual(nearest(checksum, typed), [{ text: given, changes }]);
      assert.deepEqual(nearest(checksum, given), [{ text: given, changes: [] }]);
      const left = given.slice(0, -1);
      assert.deepEqual(nearEdits(checksum, left).find((it) => it.text === given), { text: given, edit: { kind: 'putIn', place: place + 1, characters: given.at(-1) } });
    }
  }
  for (const [propose, text] of [[codex32.propose, STRING], [codex32.proposeLong, LONG_STRING]]) {
    for (const given of [text, text.toUpperCase()]) {
      const typed = `${given.slice(0, 20)}?${given.slice(21)}`;
      assert.deepEqual(propose(typed), { text: given, changes: [{ place: 20, from: '?', to: given[20] }] });
    }
  }
  // A text without a letter is in lower case.
  assert.ok(nearest('bech32', '2122222222', [], 2).every((it) => it.text === it.text.toLowerCase()));
});

test('so is a long string', (t) => {
  assert.ok(acceptsLongCodex32(LONG_STRING) && !acceptsCodex32(LONG_STRING));
  const below = numbersFrom(11);
  let count = 0;
  for (let i = 0; i < 500; i++) {
    const unread = below(9), errors = below(1 + Math.floor((8 - unread) / 2));
    const places = new Set();
    while (places.size < unread) places.add(3 + below(LONG_STRING.length - 3));
    const damaged = Array.from(changedAt(LONG_STRING, errors, below), (c, place) => (places.has(place) ? '?' : c)).join('');
    const { text, changes } = codex32.proposeLong(damaged);
    assert.equal(text, LONG_STRING, damaged);
    assert.deepEqual(changes.map(({ place, from, to }) => damaged[place] === from && LONG_STRING[place] === to && from !== to), changes.map(() => true));
    count++;
  }
  for (let i = 0; i < 100; i++) {
    const proposal = codex32.proposeLong(changedAt(LONG_STRING, 5, below));
    if (proposal) assert.ok(acceptsLongCodex32(proposal.text) && proposal.text !== LONG_STRING && proposal.changes.length <= 4);
    count++;
  }
  t.diagnostic(`${count} strings`);
});

test('strings of bytes of each length, and those that are derived of them, are accepted', () => {
  const below = numbersFrom(13), random = (length) => Uint8Array.from({ length }, () => below(256));
  for (const length of [...Array.from({ length: 29 }, (_, i) => 16 + i), 63, 64]) {
    const threshold = 2 + below(8), isAccepted = length > 44 ? acceptsLongCodex32 : acceptsCodex32;
    const texts = Array.from({ length: threshold }, (_, i) => codex32.encode(threshold, 'test', ALPHABET[i], random(length)));
    const more = ['s', 'l', 'm'].map((index) => codex32.derive(texts, index));
    assert.ok([...texts, ...more].every(isAccepted), String(length));
    assert.equal(codex32.derive([...texts.slice(3), ...more].slice(0, threshold), 's'), more[0]);
    assert.equal(codex32.derive([...more, ...texts].slice(0, threshold), ALPHABET[0]), texts[0]);
    assert.equal(codex32.derive([...texts, more[2]], 's'), more[0]);
  }
});

test('strings of the characters of a payload are those of BIP-93, and others are accepted', () => {
  const strings = ['ms10testsxxxxxxxxxxxxxxxxxxxxxxxxxx4nzvca9cmczlw', 'MS12NAMEA320ZYXWVUTSRQPNMLKJHGFEDCAXRPP870HKKQRM',
    'MS12NAMECACDEFGHJKLMNPQRSTUVWXYZ023FTR2GDZMPY6PN', 'ms13casha320zyxwvutsrqpnmlkjhgfedca2a8d0zehn8a0t'];
  for (const string of strings) {
    const { threshold, identifier, shareIndex, payload } = codex32.parse(string);
    for (const given of [payload.toLowerCase(), payload.toUpperCase()]) {
      assert.equal(codex32.encodePayload(threshold, identifier, shareIndex, given), string.toLowerCase());
    }
  }
  assert.equal(codex32.encodePayload(0, '0c8v', 'S', LONG_STRING.slice(9, -15)), LONG_STRING);
  const below = numbersFrom(17);
  for (const length of [...Array.from({ length: 29 }, (_, i) => 16 + i), 63, 64]) {
    const payload = Array.from({ length: Math.ceil((8 * length) / 5) }, () => ALPHABET[below(32)]).join('');
    const text = codex32.encodePayload(9, 'test', 'a', payload), isAccepted = length > 44 ? acceptsLongCodex32 : acceptsCodex32;
    assert.ok(isAccepted(text) && text.startsWith(`ms19testa${payload}`), text);
    assert.equal(codex32.share(text).bytes.length, length);
  }
});

test('what one share of two says of a secret', () => {
  // How many of the 8 values of the last character one share leaves: all, where the other string is of random characters.
  const whole = Array.from({ length: 8 }, (_, end) => codex32.encode(2, 'cash', 's', new Uint8Array(16).fill(end, 15)));
  const ofBytes = Array.from({ length: 8 }, (_, end) => codex32.encode(2, 'cash', 'a', new Uint8Array(16).fill(end, 15)));
  const ofCharacters = Array.from(ALPHABET, (end) => codex32.encodePayload(2, 'cash', 'a', `${'q'.repeat(25)}${end}`));
  const left = (others) => {
    const secrets = new Map();
    for (const secret of whole) {
      for (const other of others) {
        const share = codex32.derive([secret, other], 'c');
        secrets.set(share, (secrets.get(share) ?? new Set()).add(secret));
      }
    }
    return new Set(Array.from(secrets.values(), ({ size }) => size));
  };
  assert.deepEqual(left(ofCharacters), new Set([8]));
  assert.ok(!left(ofBytes).has(8));
});
