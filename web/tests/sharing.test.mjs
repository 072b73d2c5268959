// What the page for sharing says: of the fields of a secret that is split, and of strings that are put in one after another.
import test from 'node:test';
import assert from 'node:assert/strict';
import { ofAdded, ofString } from '../page/collecting.js';
import { identifierWrong, secretTyped, split } from '../page/splitting.js';
import { library } from '../src/library.js';
import { compiled } from '../out/package/modules.js';
import { numbersFrom } from './reference.mjs';
import { CASH, NAME, strings } from './sets.mjs';

const it = library(...compiled().modules);
const hex = (bytes) => Buffer.from(bytes).toString('hex');
const all = (found) => JSON.stringify(found);

const random = (bytes) => crypto.getRandomValues(bytes);

const HEX = '000102030405060708090a0b0c0d0e0f', LONG = `${HEX}${HEX.toUpperCase()}`;
const FIELDS = { kind: 'own', secret: HEX, threshold: 2, count: 3, identifier: 'test' };
const made = (fields, by = it, from = random) => split(by, from, { ...FIELDS, ...fields });
const refused = (fields, by, from) => {
  const { shares, wrong } = made(fields, by, from);
  assert.equal(shares, null);
  return wrong;
};
const textsOf = ({ shares }) => shares.map(({ text }) => text);

// All choices of this many.
const choices = (all, count) => {
  if (count === 0) return [[]];
  if (all.length < count) return [];
  const [first, ...rest] = all;
  return [...choices(rest, count - 1).map((others) => [first, ...others]), ...choices(rest, count)];
};

// ---- splitting

test('a given secret of each size comes back from every choice of enough shares', () => {
  for (const secret of [HEX, LONG, LONG.replace(/(....)/g, '$1 '), `\n${HEX}\t`]) {
    for (const [threshold, count] of [[2, 2], [2, 3], [2, 5], [3, 5], [4, 4]]) {
      const found = made({ secret, threshold, count }), wanted = secret.replace(/\s/g, '').toLowerCase();
      assert.equal(found.wrong, null);
      assert.equal(found.shares.length, count);
      for (const some of choices(textsOf(found), threshold)) assert.equal(hex(it.codex32.recover(some)), wanted);
      for (const few of choices(textsOf(found), threshold - 1)) assert.throws(() => it.codex32.recover(few), { code: 'TOO_FEW_SHARES' });
    }
  }
});

test('the least and the most that the fields can say', () => {
  for (const [threshold, count] of [[2, 2], [2, 31], [9, 9], [9, 31]]) {
    const { shares } = made({ secret: LONG, threshold, count }), texts = shares.map(({ text }) => text);
    assert.equal(new Set(shares.map(({ parts }) => parts.shareIndex)).size, count);
    for (const { text, parts } of shares) {
      assert.deepEqual([parts.threshold, parts.identifier, parts.length, text.length], [threshold, 'test', 74, 74]);
      assert.notEqual(parts.shareIndex, 's');
    }
    for (const some of [texts.slice(0, threshold), texts.slice(-threshold)]) assert.equal(hex(it.codex32.recover(some)), LONG.toLowerCase());
  }
});

test('a new secret is what was drawn, of 16 or 32 bytes', () => {
  const below = numbersFrom(77);
  for (const [kind, size] of [['16', 16], ['32', 32]]) {
    const drawn = [];
    const from = (bytes) => {
      bytes.forEach((_, i) => { bytes[i] = below(256); });
      drawn.push(hex(bytes));
      return bytes;
    };
    const texts = textsOf(made({ kind, secret: '' }, it, from));
    assert.equal(drawn[0].length, 2 * size);
    assert.equal(hex(it.codex32.recover(texts.slice(1))), drawn[0]);
  }
});

test('an identifier that was typed, in lower case, and one that is drawn', () => {
  for (const identifier of ['test', 'TEST', ' TeSt\n', 'q7x0']) assert.equal(made({ identifier }).shares[0].parts.identifier, identifier.trim().toLowerCase());
  const from = (bytes) => {
    bytes.set([0, 31, 32, 255]);
    return bytes;
  };
  assert.equal(made({ identifier: '' }, it, from).shares[0].parts.identifier, 'qlql');
  const names = new Set(Array.from({ length: 8 }, () => made({ identifier: '' }).shares[0].parts.identifier));
  assert.ok(names.size > 4, [...names].join(' '));
});

test('two splits of one secret differ, and do not go together', () => {
  const [some, others] = [textsOf(made({})), textsOf(made({}))];
  assert.notDeepEqual(some, others);
  assert.notEqual(hex(it.codex32.recover([some[0], others[1]])), HEX);
});

test('no array keeps bytes of the secret', () => {
  const seen = [];
  const codex32 = {
    ...it.codex32,
    split: (secret, ...rest) => {
      seen.push(secret);
      assert.notEqual(hex(secret), '00'.repeat(16));
      return it.codex32.split(secret, ...rest);
    },
    recover: (shares) => {
      const back = it.codex32.recover(shares);
      seen.push(back);
      return back;
    },
  };
  // What is drawn for an identifier is in every share.
  const from = (bytes) => {
    if (bytes.length > 4) seen.push(bytes);
    return random(bytes);
  };
  for (const kind of ['16', '32', 'own']) {
    seen.length = 0;
    assert.equal(made({ kind }, { ...it, codex32 }, from).wrong, null);
    assert.ok(seen.length >= 2);
    assert.ok(seen.every((bytes) => bytes.every((byte) => byte === 0)), kind);
  }
  // Nor where it ends in an error.
  const stops = { ...codex32, recover: () => { throw new Error('it stopped'); } };
  seen.length = 0;
  assert.throws(() => made({}, { ...it, codex32: stops }, from), /it stopped/);
  assert.ok(seen.length === 1 && seen[0].every((byte) => byte === 0));
});

const SIZE = / hexadecimal digits? stands? here\. A secret of 16 bytes has 32 of them, and one of 32 bytes has 64\.$/;
const SECRETS = [
  ['', /^Type your secret first\.$/], ['  \n', /^Type your secret first\.$/],
  ['0', /^One hexadecimal digit stands here\./], [HEX.slice(1), SIZE], [`${HEX}0`, SIZE], [HEX + HEX.slice(2), /^62 hexadecimal digits stand here\./], [LONG + HEX, SIZE],
  [`0x${HEX}`, /^Character 2, “x”, is not a hexadecimal digit\. These are 0 to 9 and a to f\.$/],
  [`${HEX.slice(0, 31)}g`, /^Character 32, “g”, is not a hexadecimal digit\./], [`${HEX.slice(0, 8)}-${HEX.slice(8)}`, /^Character 9, “-”, is not a hexadecimal digit\./],
  [`${HEX.slice(0, 31)}\u0660`, /is not a hexadecimal digit/], [`${HEX.slice(0, 31)}\ud800`, /is not a hexadecimal digit/],
  [CASH.a, /^This begins like a codex32 string\. Put it in under “Recover a secret”\.$/], [CASH.s.toUpperCase(), /^This begins like a codex32 string\./],
  ['abandon ability able about above absent absorb abstract absurd abuse access accident', /^These look like seed words\. Do not type them into any page\.$/],
  ['1. zoo 2. zone 3. zero 4. youth', /^These look like seed words\./],
];

test('a secret that was typed wrong', () => {
  for (const [secret, sentence] of SECRETS) {
    assert.match(refused({ secret }).verdict, sentence, secret);
    assert.deepEqual(secretTyped(secret).bytes, null);
  }
  const words = refused({ secret: SECRETS.at(-2)[0] });
  assert.equal(words.tone, 'warning');
  assert.match(all(words), /without a list of words.*Clear the field now\. Whoever sees these words can take what is in the wallet\./);
});

test('other fields that are filled in wrong', () => {
  for (const [fields, sentence] of [
    [{ threshold: 3, count: 2 }, /^Two shares are too few: three are needed to recover the secret\.$/],
    [{ threshold: 9, count: 8 }, /^Eight shares are too few: nine are needed to recover the secret\.$/],
    [{ identifier: 'abc' }, /^Character 2 of the identifier, “b”, cannot stand there\. Letters and digits can, but not 1, b, i or o\.$/],
    [{ identifier: 'tes1' }, /^Character 4 of the identifier, “1”, cannot stand there\./],
    [{ identifier: 'te t' }, /^Character 3 of the identifier, the space, cannot stand there\.|^Character 3 of the identifier, .*cannot stand there\./],
    [{ identifier: '\u212aest' }, /^Character 1 of the identifier, the Kelvin sign, .*cannot stand there\./],
    [{ identifier: 'tes' }, /^An identifier has four characters, and this one has three\.$/],
    [{ identifier: 'tests' }, /^An identifier has four characters, and this one has five\.$/],
    [{ identifier: 'testtesttestt' }, /^An identifier has four characters, and this one has 13\.$/],
  ]) {
    assert.match(refused(fields).verdict, sentence);
    assert.match(refused({ ...fields, kind: '16' }).verdict, sentence);
  }
  assert.equal(identifierWrong(''), null);
  // The secret is told first.
  assert.match(refused({ secret: '', threshold: 3, count: 2, identifier: 'b' }).verdict, /^Type your secret first/);
});

test('where there are no random bytes, there are no shares', () => {
  const none = () => { throw new Error('no entropy'); };
  for (const kind of ['16', '32']) assert.match(refused({ kind }, it, none).verdict, /^No shares were made, because the browser gave no random bytes\. Error: no entropy$/);
  for (const identifier of ['', 'test']) assert.match(refused({ identifier }, it, none).verdict, /^No shares were made, because the browser gave no random bytes\./);
});

test('shares that are not what they should be are not shown', () => {
  const good = textsOf(made({ count: 5 })), other = textsOf(made({ secret: HEX.replace('00', '01') }));
  const named = textsOf(made({ identifier: 'name' })), more = textsOf(made({ threshold: 3 })), secret = it.codex32.derive(good, 's');
  for (const shares of [other, named, more, good, good.slice(0, 2), [good[0], good[1], secret], [good[0], good[1], `${good[2].slice(0, -1)}?`]]) {
    const wrong = refused({}, { ...it, codex32: { ...it.codex32, split: () => shares } });
    assert.match(wrong.verdict, /^The shares that were made do not recover the secret, so they are not shown\. This is a fault of the browser or of this page\.$/);
  }
  for (const shares of [[good[0], good[1], other[2]], [good[0], good[1], good[1]]]) {
    assert.throws(() => made({}, { ...it, codex32: { ...it.codex32, split: () => shares } }), /contradict|one index|index/);
  }
});

// ---- strings put in one after another

const put = (text, ...changes) => changes.reduce((one, [place, character]) => one.slice(0, place) + character + one.slice(place + 1), text);
const said = (typed) => ofString(it, typed);

test('a string that is right', () => {
  for (const typed of [CASH.a, CASH.a.toUpperCase(), ` ${CASH.a}\n`, CASH.a.replace(/(....)/g, '$1 '), `“${CASH.a}”`]) {
    const { tone, verdict, added, warnings, secretOf } = said(typed);
    assert.deepEqual([tone, verdict, added.toLowerCase(), warnings, secretOf], ['right', 'This is a valid codex32 string.', CASH.a, [], undefined], typed);
  }
  assert.doesNotMatch(all(said(CASH.a)), /Put in the other shares|offline/);
  const secret = said(CASH.s);
  assert.deepEqual([secret.tone, secret.added, secret.secretOf], ['right', CASH.s, undefined]);
  assert.match(all(secret), /It is the secret itself, not a share of it\./);
});

test('a string that is corrected is offered, with a warning', () => {
  for (const typed of [put(CASH.a, [9, 'q']), put(CASH.a, [9, '?'], [20, 'o']), `msl${CASH.a.slice(3)}`, put(CASH.a, [9, 'q']).toUpperCase()]) {
    const { tone, offers, added, warnings } = said(typed);
    assert.deepEqual([tone, offers.length, offers[0].text.toLowerCase(), added], ['mended', 1, CASH.a, typed], typed);
    assert.doesNotMatch(all(offers), /Put in the other shares/);
    assert.deepEqual(warnings, ['Compare this with the source, character by character, before you use it: a correction is a guess.']);
  }
});

test('what cannot be added', () => {
  for (const [typed, sentence] of [
    [CASH.a.slice(0, 20), /characters/], [put(CASH.a, ...[9, 12, 15, 18, 21].map((place) => [place, '?']), [24, 'q'], [27, 'q'], [30, 'q']), /^This string is wrong; do not use it\.$/],
    ['m', /^A codex32 string begins like this\.$/], ['MS1', /^A codex32 string begins like this\.$/],
    ['bc1qw508d6qejxtdg4y5r3zarvary0c5xw7kv8f3t4', /^This is not a codex32 string\. Those begin with ms1\.$/],
    ['bc1qw508d6qejxtdg4y5r3zarvaty0c5xw7kv8f3t4', /^This is not a codex32 string\./], ['b', /^This is not a codex32 string\./], [HEX, /^This is not a codex32 string\./],
    ['lno1pqps7sjqpgtyzm3qv4uxzmtsd3jjqer9wd3hy6tsw35k7msj', /^This is not a codex32 string\./],
    [strings(CASH, 'ac'), /^Several strings stand here\. Put them in one after another\.$/], [`${CASH.a} ${CASH.a}`, /^Several strings stand here\./],
    ['abandon ability able about', /^These look like seed words\./], ['nsec1vl029mgpspedva04g90vltkh6fvh240zqtv9k0t9af8935ke9laqsnlfe5', /^This is a secret: a nostr private key/],
    ['q'.repeat(9000), /^This is not a codex32 string\./], [`ms1${'q'.repeat(9000)}`, /which is more than this page reads/], ['cl10leetsllhdmn9m42vcsamx24zrxgs3qrl7ahwvhw4fnzrhve25gvezzyqqjdsjnzedu43ns', /^This is not a codex32 string\. Those begin with ms1\.$/],
  ]) {
    const { verdict, added, tone } = said(typed);
    assert.match(verdict, sentence, typed.slice(0, 60));
    assert.equal(tone === 'wrong', verdict.startsWith('This string is wrong'), typed.slice(0, 60));
    assert.equal(added, null, typed.slice(0, 60));
  }
  assert.equal(said(''), null);
  assert.equal(said(' \n'), null);
});

test('strings one after another: what is wanted yet, and the secret', () => {
  const of = (...texts) => ofAdded(it, texts);
  assert.deepEqual([of(CASH.a).tone, of(CASH.a).verdict, of(CASH.a).secretOf], ['open', 'Two more shares are needed: the threshold is 3.', undefined]);
  assert.equal(of(CASH.a, CASH.c).verdict, 'One more share is needed: the threshold is 3.');
  assert.equal(of(CASH.a, CASH.a).verdict, 'Two more shares are needed: the threshold is 3.');
  assert.match(all(of(CASH.a, CASH.a)), /It is the same as string 1, and counts once\./);
  const enough = of(CASH.a, CASH.c, CASH.d);
  assert.deepEqual([enough.tone, enough.verdict, enough.secretOf], ['right', 'These three shares belong together and recover the secret.', [CASH.a, CASH.c, CASH.d]]);
  assert.deepEqual(enough.warnings, []);
  assert.equal(of(CASH.s).verdict, 'String 1 is the secret itself.');
  const mended = of(put(CASH.a, [9, 'q']), CASH.c, CASH.d);
  assert.match(all(mended), /Nothing checks them yet/);
  assert.deepEqual([mended.tone, mended.warnings.length], ['mended', 1]);
  assert.match(all(of(CASH.a, NAME.a)), /is of another set than string 1/);
});
