// What the page says of each kind of text.
import test from 'node:test';
import assert from 'node:assert/strict';
import { answer } from '../page/answer.js';
import { MOST_FALSE, falseAnswers, textsByEdit, textsWithin } from '../page/chance.js';
import { secretSaid } from '../page/codex32.js';
import { errorsFor } from '../page/offers.js';
import { readingOf, sizeOf } from '../page/reading.js';
import { SET } from '../page/sentences.js';
import { spoken } from '../page/shown.js';
import { library } from '../src/library.js';
import { compiled } from '../out/package/modules.js';
import { TARGETS, added, changedOnce, effectOf } from './reference.mjs';
import { WRONG } from './wrong-texts.mjs';
import { CASH, LONG, NAME, SECRET, SETS, strings } from './sets.mjs';

const it = library(...compiled().modules);
const said = (typed) => answer(it, typed);
const all = (found) => JSON.stringify(found);

const V0 = 'bc1qw508d6qejxtdg4y5r3zarvary0c5xw7kv8f3t4';
const V1 = 'bc1p4w46h2at4w46h2at4w46h2at4w46h2at5kreae';
const TAPROOT = 'bc1p0xlxvlhemja6c4dqv22uapctqupfhlxm9h8z3k2e72q4k9hcz7vqzk5jj0';
const SILENT = 'sp1qqgste7k9hx0qftg6qmwlkqtwuy6cycyavzmzj85c6qdfhjdpdjtdgqjuexzk6murw56suy3e0rd2cgqvycxttddwsvgxe2usfpxumr70xc9pkqwv';
const ENDS_IN_P = 'bc1qpvqqwpc8qurswpc8qurswpc8qurswpc86ndzqp';
const STRING = 'ms10testsxxxxxxxxxxxxxxxxxxxxxxxxxx4nzvca9cmczlw';
const SHARE = 'ms12testaxxxxxxxxxxxxxxxxxxxxxxxxxxk2htcew89530d';

const at = (text, place, character) => text.slice(0, place) + character + text.slice(place + 1);

const placesOf = ({ columns }) => columns.filter(({ isChanged }) => isChanged).map(({ place }) => place);
const beforeOf = ({ columns }) => columns.map(({ from }) => from).join('');

test('nothing', () => {
  for (const typed of ['', ' \n\t ', 'bitcoin:']) assert.equal(said(typed), null);
});

test('right addresses', () => {
  const found = said(V0);
  assert.deepEqual([found.tone, found.verdict, found.notes], ['right', 'This is a valid Bitcoin address.', []]);
  assert.deepEqual(found.said, ['It is a segwit address of Bitcoin. Its Bech32 checksum is right.', 'It pays to the hash of a public key (P2WPKH).']);
  assert.deepEqual(found.facts, [{ name: 'Witness version 0, program of 20 bytes:', text: '751e76e8199196d454941c45d1b3a323f1433bd6' }]);
  assert.equal(said(V0.toUpperCase()).tone, 'right');
  assert.match(all(said(TAPROOT)), /valid Bitcoin address.*Its Bech32m checksum is right.*Taproot/);
  assert.match(all(said('tb1qw508d6qejxtdg4y5r3zarvary0c5xw7kxpjzsx')), /This is a valid Bitcoin testnet address\..*the Bitcoin test networks/);
  assert.equal(said(it.segwit.encode('bcrt', 1, new Uint8Array(32))).verdict, 'This is a valid Bitcoin regtest address.');
  assert.match(all(said('ltc1qw508d6qejxtdg4y5r3zarvary0c5xw7kgmn4n9')), /This is a valid Litecoin address\..*It is a segwit address of Litecoin\./);
  assert.match(all(said(it.segwit.encode('abcd', 1, new Uint8Array(32)))), /This is a valid Bech32m address of a network that this page does not know\..*built like a segwit address, but this page knows no network with the part “abcd”/);
});

test('what stands around an address', () => {
  assert.deepEqual(said(`  ${V0}\n`).notes, []);
  assert.deepEqual(said(V0.replace(/(....)/g, '$1 ')).notes, ['The spaces in it were left out.']);
  for (const scheme of ['bitcoin:', 'BITCOIN:', 'Bitcoin:']) {
    const found = said(`${scheme}${V0}`);
    assert.deepEqual([found.tone, found.notes], ['right', [`The “${scheme}” before it was left out.`]]);
  }
  const paid = said(`bitcoin:${V0}?amount=0.1&label=x`);
  assert.deepEqual([paid.tone, paid.notes.length], ['right', 1]);
  for (const quoted of [`"${V0}"`, `'${V0}'`, `“${V0}”,`, `«${V0}»`, `\`${V0}\``, `${V0}.`]) {
    assert.deepEqual([said(quoted).tone, said(quoted).notes], ['right', ['The quotes or punctuation around it were left out.']], quoted);
  }
  const unread = said(`bitcoin:${at(V0, 20, '?')}?amount=0.1`);
  assert.deepEqual(unread.offers.map(({ text }) => text), [V0]);
});

test('texts that are no addresses', () => {
  assert.match(all(said('a12uel5l')), /valid Bech32 text.*a text with the part “a” and 0 characters of data/);
  assert.match(all(said('a1lqfn3a')), /valid Bech32m text/);
  const invoice = it.encode('bech32', 'lnbc2500u', new Uint8Array(300).fill(7));
  assert.equal(said(`lightning:${invoice}`).verdict, 'This is a Lightning invoice, and its Bech32 checksum is right.');
  assert.match(all(said(invoice)), /tests its checksum, but not its amount or its signature/);
});

test('an address with the checksum of the other kind is no address', () => {
  const found = said('bc1p0xlxvlhemja6c4dqv22uapctqupfhlxm9h8z3k2e72q4k9hcz7vqh2y7hd');
  assert.deepEqual([found.tone, found.verdict], ['wrong', 'The Bech32 checksum is right, but this is not a valid address. Do not send to it.']);
  assert.deepEqual(found.said, ['It begins like an address. An address of this version must have the other checksum, Bech32m.']);
  assert.match(all(said('BC1QR508D6QEJXTDG4Y5R3ZARVARYV98GJ9P')), /Do not send to it.*The program has 16 bytes/);
});

test('each single error of an address is marked and mended, with a caution', () => {
  for (const text of [V0, TAPROOT]) {
    for (const damaged of changedOnce(text)) {
      const found = said(damaged), place = Array.from(text).findIndex((c, i) => c !== damaged[i]);
      const [offer] = found.offers;
      assert.equal(found.tone, 'mended');
      assert.match(found.verdict, new RegExp(`^Character ${place + 1} should be ${text[place]}, not ${damaged[place]}\\.$`));
      assert.match(found.warnings[0], /^Compare this with the source.*a correction is a guess/);
      assert.deepEqual(found.said, ['As typed, the checksum is wrong for both Bech32m and Bech32.']);
      assert.deepEqual([offer.text, placesOf(offer), beforeOf(offer), offer.changes], [text, [place], damaged, []]);
    }
  }
});

test('no address is offered of a form that is not in use', () => {
  assert.equal(it.segwit.decode(V1).program.length, 20);
  assert.match(all(said(V1)), /valid Bitcoin address/);
  for (const damaged of [...changedOnce(V1), V1.slice(0, 20) + V1.slice(21), V1.slice(0, 20) + V1.slice(19)]) {
    assert.deepEqual((said(damaged).offers ?? []).map(({ text }) => text), [], damaged);
  }
});

test('both checksums, where both have an answer', () => {
  // An address of version 0 and one of another version that differ in three more characters: each is two changes away from
  // a text between them. The four changes are those whose remainders add up to the difference of the two targets.
  const text = it.segwit.encode('bc', 0, new Uint8Array(32).fill(5)), last = text.length - 4, pairs = new Map();
  for (let location = 7; location < last; location++) {
    for (let value = 1; value < 32; value++) pairs.set(effectOf(location, value), { location, value });
  }
  const found = () => {
    for (let version = 1; version <= 16; version++) {
      const first = { location: last, value: version }, wanted = effectOf(last, version) ^ TARGETS.bech32 ^ TARGETS.bech32m;
      for (const [one, second] of pairs) {
        for (const [two, third] of pairs) {
          const fourth = pairs.get(wanted ^ one ^ two);
          if (second.location < third.location && fourth && third.location < fourth.location) return [first, second, third, fourth];
        }
      }
    }
    return null;
  };
  const changes = found(), damaged = changes.slice(0, 2).reduce(added, text), other = changes.slice(2).reduce(added, damaged);
  const both = said(damaged);
  assert.equal(both.verdict, 'Two addresses are close to this. At most one of them is the one you want.');
  assert.deepEqual(both.offers.map(({ said: [, checksum], text: mended }) => [/Its (Bech32m?) checksum/.exec(checksum)[1], mended]).sort(),
    [['Bech32', text], ['Bech32m', other]]);
  assert.match(both.warnings[0], /^Compare this with the source/);
});

test('a mended text that is an address with the checksum of the other kind is not offered', () => {
  const broken = 'bc1p0xlxvlhemja6c4dqv22uapctqupfhlxm9h8z3k2e72q4k9hcz7vqh2y7hd';
  const found = said(at(broken, 20, broken[20] === 'q' ? 'p' : 'q'));
  assert.deepEqual([found.tone, found.verdict, found.offers], ['wrong', 'This address is wrong; do not use it.', undefined]);
  assert.equal(found.said[0], 'No correction was found.');
  assert.ok(found.said.includes('No change of one or two characters makes it a valid address. Nor does leaving one out, adding one, or swapping two.'));
});

test('how many wrong characters are looked for beside those that cannot be read', () => {
  // As many as a correction finds at least. In texts of 300 characters two would be found too often by chance.
  const asked = [], counting = { ...it, nearest: (...given) => { asked.push(given[3]); return it.nearest(...given); } };
  const texts = { 42: V0, 62: TAPROOT, 116: SILENT, 300: it.encode('bech32', 'lnbc', new Uint8Array(180).fill(9)) };
  const wrong = (text, unread) => Array.from(text, (c, i) => (i > 15 && i <= 15 + unread ? '?' : [7, 12, 30, 31, 32].includes(i) ? (c === 'q' ? 'p' : 'q') : c)).join('');
  for (const [length, unread, errors] of [[42, 0, 2], [42, 1, 1], [42, 2, 1], [42, 3, 0], [62, 0, 2], [62, 1, 1], [62, 2, 1], [62, 3, 0],
    [116, 0, 2], [116, 2, 1], [300, 0, 1], [300, 1, 1], [300, 2, 1]]) {
    asked.length = 0;
    const found = answer(counting, wrong(texts[length], unread));
    assert.deepEqual(new Set(asked), new Set([errors]), `${unread} in ${length}: ${asked}`);
    if (found.tone === 'wrong') assert.match(found.said.join(' '), errors === 2 ? /one or two characters/ : unread < 3 ? /of one character/ : /./);
  }
});

test('how many false answers are to be expected, and that none is shown above the stated figure', () => {
  // By each checksum, of texts at random: of 59 characters of data, two of which are wrong, 15 in 10,000.
  const round = (it) => Math.round(it * 10000);
  assert.equal(round(falseAnswers(textsWithin(59, 0, 2))), 15);
  assert.equal(round(falseAnswers(textsWithin(59, 1, 2))), 474);
  assert.equal(textsWithin(3, 1, 1), 32 * (1 + 31 * 2));
  assert.equal(textsByEdit(2), 1 + 2 + 3 * 32);
  assert.equal(MOST_FALSE, 0.01);
  for (const [text, most] of [[V0, 2], [TAPROOT, 2], [SILENT, 2], [`lnbc1${'q'.repeat(146)}`, 2], [`lnbc1${'q'.repeat(150)}`, 1], [`addr1${'q'.repeat(98)}`, 2], [`lnbc1${'q'.repeat(1000)}`, 1]]) {
    const reading = readingOf(text, '0'), size = sizeOf(reading), errors = errorsFor(it, reading), checksums = reading.known.network ? 2 : 1;
    assert.equal(errors, most, text);
    assert.ok(falseAnswers(checksums * (textsWithin(size, 0, errors) + textsByEdit(size))) <= MOST_FALSE);
    assert.ok(errors === 2 || falseAnswers(checksums * (textsWithin(size, 0, errors + 1) + textsByEdit(size))) > MOST_FALSE);
  }
});

test('of a part that it does not know the page offers nothing', () => {
  for (const hrp of ['a', 'abcd', 'ln0', 'lmo', 'lnp', 'iq', 'lg', 'tiq', 'el2', 'oh', 'x-foo', 'npud', 'spp', 'nc']) {
    const text = it.encode('bech32', hrp, new Uint8Array(40).fill(3)), place = text.length - 9;
    assert.equal(said(text).tone, 'right', hrp);
    for (const typed of [at(text, place, text[place] === 'q' ? 'p' : 'q'), text.slice(0, -1), `${text}q`, at(text, place, '?')]) {
      const found = said(typed);
      assert.deepEqual([found.tone, found.offers], ['other', undefined], typed);
      assert.equal(found.verdict, `This page does not know texts that begin with “${hrp}1”, so it cannot judge this one.`);
    }
  }
});

test('what is mended has the case of what was typed', () => {
  for (const text of [V0, TAPROOT, SILENT, STRING, LONG[0], it.encode('bech32', 'age-secret-key-', new Uint8Array(32).fill(7))]) {
    const place = text.length - 9, wrong = at(text, place, text[place] === 'q' ? 'p' : 'q');
    const missing = text.slice(0, place) + text.slice(place + 1), begun = `${text.slice(0, 2)}l${text.slice(3)}`;
    const many = text.startsWith('ms1') || text === SILENT || text.startsWith('age') ? [wrong] : [wrong, missing, begun, text.slice(3), `${text.slice(0, 20)}-${text.slice(20)}`];
    for (const typed of many) {
      assert.deepEqual([said(typed).tone, said(typed).offers[0].text], ['mended', text], typed);
      assert.deepEqual([said(typed.toUpperCase()).tone, said(typed.toUpperCase()).offers[0].text], ['mended', text.toUpperCase()], typed);
    }
    assert.equal(said(text.slice(0, 10).toUpperCase() + wrong.slice(10)).offers[0].text, text);
  }
});

test('a mended text that has not the length of its kind is not offered', () => {
  for (const [hrp, size] of [['npub', 31], ['age', 33], ['cosmos', 21], ['zs', 42], ['xch', 31]]) {
    const text = it.encode(hrp === 'xch' ? 'bech32m' : 'bech32', hrp, new Uint8Array(size).fill(7)), place = text.length - 9;
    assert.equal(said(at(text, place, text[place] === 'q' ? 'p' : 'q')).offers, undefined, hrp);
  }
  const short = it.encode('bech32', 'npub', new Uint8Array(31).fill(7));
  assert.deepEqual([said(short).tone, said(short).verdict], ['wrong', 'The Bech32 checksum is right, but this is not a nostr public key. Do not use it.']);
  assert.deepEqual(said(short).said, ['It has 61 characters, and such a text has 63.']);
  const other = said(it.encode('bech32m', 'npub', new Uint8Array(32).fill(7)));
  assert.deepEqual([other.tone, other.said], ['wrong', ['Such a text must have the other checksum, Bech32.']]);
});

test('the front of a text of a known kind', () => {
  const npub = it.encode('bech32', 'npub', new Uint8Array(32).fill(7)), nsec = it.encode('bech32', 'nsec', new Uint8Array(32).fill(7));
  assert.deepEqual([said(npub.slice(0, 30)).tone, said(npub.slice(0, 30)).verdict], ['open', 'This begins like a nostr public key: 30 characters so far, of 63.']);
  assert.deepEqual(said(npub.slice(0, 61)).said, ['If this is all of it, two characters are missing.']);
  assert.match(said('npub1').verdict, /: five characters so far, of 63\.$/);
  assert.match(said('osmo1qqqqqqq').verdict, /^This begins like an Osmosis address: twelve characters so far, of 43 or 63\.$/);
  assert.ok(said(nsec.slice(0, 30)).warnings.length === 1 && said(nsec.slice(0, 30)).isSecret);
});

test('secrets are warned of, and are not to be copied', () => {
  const nsec = it.encode('bech32', 'nsec', new Uint8Array(32).fill(7)), age = it.encode('bech32', 'age-secret-key-', new Uint8Array(32).fill(7)).toUpperCase();
  for (const text of [nsec, nsec.toUpperCase(), age, it.encode('bech32', 'secret-extended-key-main', new Uint8Array(169)), it.encode('bech32', 'addr_xsk', new Uint8Array(64))]) {
    const found = said(text), wrong = said(at(text, text.length - 9, text.at(-9) === 'q' || text.at(-9) === 'Q' ? 'p' : 'q'));
    assert.deepEqual([found.tone, found.isSecret, found.warnings.length], ['warning', true, 1], text);
    assert.match(found.verdict, /^This is a secret: a.* private key\. Its Bech32 checksum is right\.$/);
    assert.ok(wrong.isSecret && wrong.warnings.some((warning) => /^Clear the field now/.test(warning)), text);
  }
  const short = said(it.encode('bech32', 'nsec', new Uint8Array(31).fill(7)));
  assert.deepEqual([short.tone, short.isSecret, short.warnings.length, short.said], ['wrong', true, 1, ['It has 61 characters, and such a text has 63.']]);
  assert.match(said(age.toLowerCase()).said[0], /^age accepts this key only in upper case\./);
  const file = `# created: 2026-01-01\n# public key: ${it.encode('bech32', 'age', new Uint8Array(32))}\n${age}\n`;
  for (const typed of [file, `my key is ${nsec}`, `key: xprv9s21ZrQH143K3QTDL4LXw2F7HEK3wJUD2nW2nRk4stbPy6cq3jPPqjiChkVvvNKmPGJxWUtg6LnF5kejMRNNU3TGtRBeJgk33yuGBxrMPHi`]) {
    assert.deepEqual([said(typed).tone, said(typed).warnings.length, said(typed).text], ['warning', 1, undefined], typed);
    assert.match(said(typed).verdict, /^There is a secret in this text: .*\. Do not type it into any page\.$/);
  }
  for (const typed of [STRING, SHARE, STRING.slice(0, 40), at(at(STRING, 20, 'q'), 30, 'q')]) assert.ok(said(typed).warnings.some((it) => /^Type it only on a computer that is offline/.test(it)), typed);
});

test('schemes are taken off, and the parts of a link are read', () => {
  const npub = it.encode('bech32', 'npub', new Uint8Array(32).fill(7)), invoice = it.encode('bech32', 'lnbc2500u', new Uint8Array(150).fill(7));
  for (const [typed, verdict] of [[`nostr:${npub}`, /nostr public key/], [`NOSTR:${npub.toUpperCase()}`, /nostr public key/], [`lightning:${invoice}`, /Lightning invoice/],
    [`Lightning://${invoice}`, /Lightning invoice/], [`zcash:${it.encode('bech32m', 'u', new Uint8Array(70))}?amount=1`, /unified Zcash address/], ['liquidnetwork:lq1qqf8er278e6nyvuwtgf39e6ewvdcnjupn9a86rzpx655y5lhkt0walu3djf9cklkxd3ryld97hu8h3xepw7sh2rlu7q45dcew5', /confidential address of Liquid/],
    [`bitcoin:?sp=${SILENT}`, /silent payment address/], [`BITCOIN:?SP=${SILENT.toUpperCase()}`, /silent payment address/], [`bitcoin:?lno=lno1pqps7sjq`, /Lightning offer/], [`bitcoin:?lightning=${invoice}&amount=1`, /Lightning invoice/], [`bitcoin:?bc=${V0}`, /valid Bitcoin address/]]) {
    const found = said(typed);
    assert.match(found.verdict, verdict, typed);
    assert.match(found.notes.join(' '), /^The “[A-Za-z]+:” before it was left out\./, typed);
  }
  const found = said(`bitcoin:${at(V0, 27, 't')}?amount=1&sp=${SILENT}&lightning=${at(invoice, 60, 'q')}&lno=lno1pqps7sjq`);
  assert.deepEqual([found.tone, found.verdict], ['other', 'This link names four ways to pay.']);
  assert.deepEqual(found.parts.map(({ title, tone, offers }) => [title, tone, offers?.[0].text]), [['The address', 'mended', V0], ['The silent payment address (sp=)', 'right', undefined], ['The Lightning invoice (lightning=)', 'mended', invoice], ['The Lightning offer (lno=)', 'other', undefined]]);
  assert.match(spoken(found), /The address: Character 28 should be r, not t\./);
  assert.deepEqual([said('bitcoin:?amount=1').tone, said('bitcoin:?amount=1').verdict], ['other', 'This link has no address in it.']);
  assert.equal(said(`bitcoin:?sp=${at(SILENT, 100, SILENT[100] === 'q' ? 'p' : 'q')}`).offers[0].text, SILENT);
});

test('of several texts of known kinds each is chosen', () => {
  const npub = it.encode('bech32', 'npub', new Uint8Array(32).fill(7)), nsec = it.encode('bech32', 'nsec', new Uint8Array(32).fill(7));
  assert.deepEqual([said(`${npub} ${SILENT}`).choices, said(`${npub} ${SILENT}`).verdict], [[npub, SILENT], 'Two texts stand here, and this page reads one at a time.']);
  assert.match(said(`${nsec}\n${nsec.toUpperCase()}`).warnings.join('|'), /^Clear the field now[^|]*$/);
  assert.equal(said(npub.replace(/(....)/g, '$1 ')).tone, 'right');
});

test('more changes than three are counted, and listed', () => {
  const found = said(at(at(at(at(STRING, 5, 'q'), 15, 'q'), 25, 'q'), 40, 'q'));
  assert.equal(found.verdict, 'Four characters are wrong.');
  assert.deepEqual(found.offers[0].changes.slice(0, 1), [`Character 6 should be ${STRING[5]}, not q.`]);
  assert.equal(found.offers[0].changes.length, 4);
});

test('each missing, doubled and swapped character of an address is found, with its columns', () => {
  const columnsOf = ({ columns }) => columns.filter(({ isChanged }) => isChanged).map(({ from, to, place }) => `${from ?? ''}>${to ?? ''}@${place}`);
  for (const text of [V0, TAPROOT]) {
    for (let place = 3; place < text.length; place++) {
      const { [place]: it, [place + 1]: next } = text, front = text.slice(0, place), behind = text.slice(place + 1);
      const end = place + /^(.)\1*/.exec(text.slice(place))[0].length - 1;
      for (const [typed, said1, columns] of [
        [front + behind, /^One character is missing: ., as character \d+\.$/, [`>${it}@${end}`]],
        [front + it + it + behind, /^One character is too many: character \d+, .\.$/, [`${it}>@${end + 1}`]],
        [front + next + it + behind.slice(1), /^Two neighbours are swapped: characters \d+ and \d+ should be .., not ..\.$/, [`${next}>${it}@${place}`, `${it}>${next}@${place + 1}`]],
      ]) {
        if (typed === text || typed.includes('undefined')) continue;
        const found = said(typed);
        assert.deepEqual([found.tone, found.offers.length, found.offers[0].text], ['mended', 1, text], typed);
        assert.match(found.verdict, said1);
        assert.deepEqual(columnsOf(found.offers[0]), columns, typed);
        assert.equal(beforeOf({ columns: found.offers[0].columns.map((one) => ({ from: one.from ?? '' })) }), typed);
        assert.match(found.warnings[0], /^Compare this with the source/);
      }
    }
  }
});

test('a text that ends in p has a word on the weakness of Bech32, below one that wrong characters explain', () => {
  const WORD = 'Bech32 accepts a text that ends in “p” with any number of “q” before that “p”. Check the end of this one twice.';
  const before = (text, end) => `${text.slice(0, -1)}${end}`;
  for (const [typed, verdict] of [
    [before(ENDS_IN_P.slice(0, -1), 'p'), 'One character is missing: q, as character 41.'], [before(ENDS_IN_P, 'qp'), 'One character is too many: character 42, q.'],
    [before(ENDS_IN_P, ''), 'One character is missing: p, as character 42.'], [before(ENDS_IN_P.slice(0, -1), 'pq'), 'Two neighbours are swapped: characters 41 and 42 should be qp, not pq.'],
  ]) {
    const found = said(typed), [offer] = found.offers;
    assert.deepEqual([found.tone, found.verdict, found.offers.length, offer.text], ['mended', verdict, 1, ENDS_IN_P]);
    assert.equal(offer.said.at(-1), WORD);
  }
  assert.deepEqual(said(before(ENDS_IN_P.slice(0, -1), 'p')).said, ['As typed, it has a right Bech32 checksum, but it is not a valid address. The program has 19 bytes; in version 0 it has 20 or 32.']);
  // The last character was mistyped as another by one bit.
  const right = it.encode('bech32', 'lnbc', Uint8Array.of(1, 2, 3));
  const typed = added(right, { location: 0, value: 1 }), below = said(typed);
  assert.deepEqual(below.offers.map(({ text }) => text), [right, `${typed}p`]);
  assert.deepEqual(below.offers.map((offer) => offer.said.includes(WORD)), [false, true]);
  // Bech32m has no such weakness, and no word is said of an edit further on.
  const further = it.encode('bech32', 'bc', Uint8Array.of(5, 6));
  for (const text of [V1, further]) assert.ok(!all(said(text.slice(0, 8) + text.slice(9))).includes(WORD));
});

test('each wrong text has its sentence', () => {
  for (const [name, typed, sentence, mended] of WRONG) {
    const found = said(typed);
    assert.match([found.verdict, ...(found.warnings ?? []), ...(found.offers ?? []).flatMap((it) => it.said), ...found.said, ...found.notes].join(' '), sentence, name);
    assert.equal(found.offers?.[0].text ?? null, mended, name);
    assert.equal(found.tone === 'mended', mended !== null, name);
  }
});

test('what is right is read as it is, whatever it looks like', () => {
  for (const hrp of ['"', "'a'", '0x', '3', 'xpub', 'bv', 'bcl', 'c', 'abcdefghijkbc', 'bitcoin:', 'a?b=']) {
    const text = it.encode('bech32', hrp, Uint8Array.of(1, 2, 3));
    assert.deepEqual([said(text).verdict, said(text).notes], ['This is a valid Bech32 text.', []], text);
  }
});

test('what looks like several texts or seed words, and is not', () => {
  for (const typed of [V0.replace(/(....)/g, '$1 '), V0.toUpperCase().replace(/(....)/g, '$1 '), `pay ${V0}`, 'lnbc1 tb', 'one two three', 'a b c d']) {
    assert.deepEqual([said(typed).choices, said(typed).warnings], [undefined, undefined], typed);
  }
  assert.deepEqual(said(`${V0} ${V0}`).choices, [V0]);
  assert.deepEqual(said(`${V0}\n${TAPROOT}`).choices, [V0, TAPROOT]);
  assert.deepEqual(said(`${V0} ${TAPROOT}`.replace(/(\S{4})/g, '$1 ')).choices, [V0, TAPROOT]);
});

test('the columns of a beginning that was mended', () => {
  const columns = (typed) => said(typed).offers[0].columns.slice(0, 5).map(({ from, to, isChanged }) => `${from ?? '-'}${to ?? '-'}${isChanged ? '!' : ''}`).join(' ');
  assert.equal(columns(`bcl${V0.slice(3)}`), 'bb cc l1! qq ww');
  assert.equal(columns(V0.slice(3)), '-b! -c! -1! qq ww');
  assert.equal(columns(V0.slice(1)), '-b! cc 11 qq ww');
  assert.equal(columns(`bc${V0.slice(3)}`), 'bb cc -1! qq ww');
  assert.equal(columns(`bcc1${V0.slice(3)}`), 'bb cc c-! 11 qq');
});

test('faults of known kinds that no correction mends', () => {
  for (const [typed, sentence, marked] of [
    [`${V0.slice(0, 15)}bb${V0.slice(17, 30)}bb${V0.slice(32)}`, /^Four characters are treated as unreadable/, [15, 16, 30, 31]],
    [`bc1${'q'.repeat(1022)}`, /^The text has 1,025 characters/, [1023]],
  ]) {
    const found = said(typed);
    assert.deepEqual([found.tone, found.verdict, found.warnings, found.marked], ['wrong', 'This address is wrong; do not use it.', undefined, marked], typed);
    assert.ok(found.said.some((one) => sentence.test(one)), typed);
  }
});

test('a text of no known kind, or without the shape of one, is not called wrong', () => {
  const foreign = 'This does not look like a Bech32 text, so this page cannot judge it.';
  for (const typed of ['qpzry', 'abc', '1qqqqqq', 'a1qqqqq', 'bc?qw508d6', 'é1qqqqqq', 'Hello, is this thing on?', '?', 'one1two, 3/4', 'bc1<script>alert(1)</script>', 'u1AbCdEfGh2kMn',
    'ms1 and lq1 are beginnings', '\ud800', '1'.repeat(31)]) {
    const found = said(typed);
    assert.deepEqual([found.tone, found.verdict, found.text, found.notes], ['other', foreign, undefined, []], typed);
  }
  assert.deepEqual(said('bc?qw508d6').said, ['It begins with “bc”. Bitcoin addresses begin with “bc1”, “tb1” or “bcrt1”.']);
  assert.equal(said(`a1${'q'.repeat(1022)}`).tone, 'other');
});

test('what is typed so far is not called wrong', () => {
  assert.equal(said('bc1qw').verdict, 'Five characters so far. An address of version 0 has 42 or 62.');
  for (const whole of [V0, TAPROOT, 'tb1qw508d6qejxtdg4y5r3zarvary0c5xw7kxpjzsx', 'ltc1qw508d6qejxtdg4y5r3zarvary0c5xw7kgmn4n9'.slice(0, 9), SILENT]) {
    for (let size = 1; size < whole.length - 1; size++) assert.notEqual(said(whole.slice(0, size)).tone, 'wrong', whole.slice(0, size));
  }
});

test('bad input gets a sentence', () => {
  assert.match(said('q'.repeat(1 << 20)).verdict, /^This has 1,048,576 characters, which is more than this page reads, so it cannot judge this\./);
  const kelvin = said(V0.replaceAll('k', '\u212a'));
  assert.match(kelvin.verdict, /character 36 should be k, not the Kelvin sign, which looks like K \(U\+212A\)\./i);
  assert.equal(kelvin.offers[0].text, V0);
  assert.match(said(at(V0, 10, '\ud800')).verdict, /half of a character \(U\+D800\)/);
  assert.match(said(at(V0, 10, '\udc00')).verdict, /half of a character \(U\+DC00\)/);
  const turned = said(`\u202e${V0.slice(0, 10)}\u200f${V0.slice(10)}\u202c`);
  assert.deepEqual(turned.notes, ['Invisible characters were left out: a mark of direction (U+202E), a right-to-left mark (U+200F), a mark of direction (U+202C).']);
  assert.equal(turned.tone, 'right');
  assert.equal(said('<img src=x onerror=alert(1)>').tone, 'other');
  assert.match(said(`${V0}<b>${V0.slice(3)}o</b>`).said.join(' '), /Eight characters are treated as unreadable: character 43, “<”; .*; and 5 more\. Letters and digits can stand there, but not/);
  assert.match(said('1\u{1f600}'.repeat(600)).verdict, /./);
});

test('codex32 strings', () => {
  const found = said(STRING);
  assert.deepEqual([found.tone, found.verdict], ['right', 'This is a valid codex32 string.']);
  assert.deepEqual(found.said, ['It is the secret itself, not a share of it.', 'Threshold 0, identifier “test”, share index “s”, 48 characters with a payload of 16 bytes.']);
  assert.deepEqual(found.warnings.length, 1);
  assert.match(found.warnings[0], /^Type it only on a computer that is offline, with a copy of this page on its disk, and clear the field at the end: whoever sees this string has the secret, or a share of it\.$/);
  assert.match(all(said(SHARE)), /It is share “a” of a secret\. It takes two shares to recover it\..*Put in the other shares as well, each on a line of its own/);
  assert.deepEqual([found.secretOf, said(SHARE).secretOf], [[STRING], undefined]);
  assert.equal(said(STRING.toUpperCase()).tone, 'right');
  const damaged = said(at(at(at(at(STRING, 5, 'q'), 15, 'q'), 25, 'q'), 40, 'q'));
  assert.deepEqual([damaged.verdict, damaged.offers[0].text], ['Four characters are wrong.', STRING]);
  assert.deepEqual([placesOf(damaged.offers[0]), damaged.said[0]], [[5, 15, 25, 40], 'As typed, the codex32 checksum is wrong.']);
  assert.ok(found.isSecret && damaged.isSecret);
  assert.match(damaged.warnings.join('|'), /^Compare this with the source.*\|Type it only on a computer that is offline/);
  const unread = said(`${STRING.slice(0, -8)}????????`);
  assert.deepEqual([unread.verdict, unread.offers[0].text], ['Eight unreadable characters are restored.', STRING]);
  assert.match(all(said(`${STRING.slice(0, -9)}?????????`)), /No correction was found.*Nine characters are unreadable.*More than four characters are wrong/);
  assert.match(all(said(`M${STRING.slice(1)}`)), /mixed\. In lower case the text is valid/);
});

test('codex32 strings that are none', () => {
  assert.deepEqual([said('ms1').tone, said('ms10').tone, said(STRING.slice(0, -1)).tone], ['open', 'open', 'open']);
  assert.match(said('ms10').verdict, /^The text has 4 characters; a codex32 string has from 48 to 93, or from 125 to 127\./);
  assert.match(said(STRING.slice(0, -1)).verdict, /^The text has 47 characters/);
  assert.match(said('ms1qtestsxxxxxxxxxxxxxxxxxxxxxxxxxxq68ksv56lmaq5').verdict, /is no threshold/);
  assert.match(said('ms10testaxxxxxxxxxxxxxxxxxxxxxxxxxxzd568kp774rau').verdict, /is no share index/);
  const broken = said('ms1qtestsxxxxxxxxxxxxxxxxxxxxxxxxxxq68ksv56lma??');
  assert.equal(broken.offers, undefined);
  assert.match(all(broken), /No correction was found.*The nearest text with a right checksum is not a codex32 string\. Character 4, “q”, is no threshold/);
});

test('long codex32 strings', () => {
  const found = said(LONG[0]), damaged = said(at(at(at(LONG[0], 30, 'q'), 60, '?'), 90, '?'));
  assert.deepEqual([found.tone, found.said[1]], ['right', 'Threshold 2, identifier “l0ng”, share index “a”, 127 characters with a payload of 64 bytes.']);
  assert.deepEqual([damaged.tone, damaged.offers[0].text, damaged.isSecret], ['mended', LONG[0], true]);
  for (const length of [94, 100, 124]) {
    assert.deepEqual([said(LONG[0].slice(0, length)).tone, said(LONG[0].slice(0, length)).verdict], ['open', `The text has ${length} characters; a codex32 string has from 48 to 93, or from 125 to 127.`]);
  }
  assert.deepEqual([said(`${LONG[0]}q`).tone, said(`${LONG[0]}q`).marked], ['wrong', [127]]);
});

test('a string of no whole bytes', () => {
  const found = said('ms12xh04fm5amh7k7ay0jj7mgh3ndf4zdx0dmxgdrhz38hawaewk');
  assert.equal(found.tone, 'right');
  assert.match(found.said[1], /^Threshold 2, identifier “xh04”, share index “f”, 52 characters with a payload that is not a whole number of bytes\.$/);
});

test('several codex32 strings', () => {
  for (const [name, typed, tone, sentence, titles, secret] of SETS) {
    const found = said(typed);
    assert.deepEqual([found.tone, found.isSecret, found.offers, found.choices], [tone, true, undefined, undefined], name);
    assert.match([found.verdict, ...found.said, ...found.notes].join(' '), sentence, name);
    assert.deepEqual(found.strings.map(({ title }) => title.replace(/^String \d+(?:: | )/, '')), titles, name);
    assert.equal(found.secretOf ? secretSaid(it, found.secretOf)[0].text : null, secret, name);
    assert.match(found.warnings.at(-1), /^Type them only on a computer that is offline, .*: whoever sees these strings has the secret, or shares of it\.$/, name);
    assert.equal(found.warnings.length, found.strings.some((one) => one.tone === 'mended') ? 2 : 1, name);
    assert.equal(/^Compare this with the source/.test(found.warnings[0]), found.warnings.length === 2, name);
    assert.doesNotMatch(JSON.stringify([found.verdict, found.said, found.strings.map(({ said }) => said)]) + spoken(found), /undefined|NaN|null/, name);
    assert.ok(secret === null || typed.toLowerCase().includes(secret) || !all(found).includes(secret), name);
  }
});

test('the secret is not worked out before it is asked for', () => {
  const asked = [], watched = { ...it, codex32: { ...it.codex32, derive: (texts, index) => { asked.push(index); return it.codex32.derive(texts, index); }, recover: () => assert.fail('the secret') } };
  const found = answer(watched, strings(CASH, 'acde'));
  assert.deepEqual([found.tone, asked], ['right', ['a']]);
  assert.ok(!all(found).includes(SECRET));
});

test('the secret with its bytes', () => {
  assert.deepEqual(secretSaid(it, [NAME.a, NAME.c]), [{ name: 'The secret as a codex32 string:', text: 'ms12names6xqguzttxkeqnjsjzv4jv3nz5k3kwgsphuh6evw' }, { name: 'Its 16 bytes:', text: 'd1808e096b35b209ca12132b264662a5' }]);
  assert.equal(secretSaid(it, LONG)[1].name, 'Its 64 bytes:');
});

test('what is said of each string of a set', () => {
  const [right, mended, wrong] = said(`${CASH.a}\n${at(CASH.c, 10, 'q')}\n${CASH.d.slice(0, 20)}qqqqqqqqq${CASH.d.slice(29)}`).strings;
  assert.deepEqual(right, { title: 'String 1: share “a”', tone: 'right', said: ['Threshold 3, identifier “cash”, share index “a”, 48 characters with a payload of 16 bytes.'] });
  assert.deepEqual([mended.tone, mended.headline, mended.offers.length, mended.offers[0].text, placesOf(mended.offers[0])], ['mended', `Character 11 should be ${CASH.c[10]}, not q.`, 1, CASH.c, [10]]);
  assert.deepEqual([wrong.title, wrong.tone, wrong.headline, wrong.marked], ['String 3 cannot be read', 'wrong', 'This string is wrong; do not use it.', []]);
  assert.match(spoken(said(`${CASH.a}\n${CASH.c}`)), /^One more share is needed: the threshold is 3\. Type them only on a computer.* String 1: share “a”\. Threshold 3.* String 2: share “c”\. Threshold 3/);
});

test('each two of the shares of BIP-93, and each three, in any order', () => {
  const indices = ['a', 'c', 'd', 'e', 'f'];
  for (const x of ['a', 'c', 'd']) {
    for (const y of ['a', 'c', 'd']) if (x !== y) assert.equal(secretSaid(it, said(strings(NAME, x + y)).secretOf)[0].text, 'ms12names6xqguzttxkeqnjsjzv4jv3nz5k3kwgsphuh6evw');
  }
  for (const x of indices) {
    for (const y of indices) {
      for (const z of indices) if (new Set([x, y, z]).size === 3) assert.equal(secretSaid(it, said(strings(CASH, x + y + z)).secretOf)[0].text, SECRET);
    }
  }
});

test('how many more shares would reveal a mistake', () => {
  assert.deepEqual([2, 7, 9, 10].map((count) => SET.noSpare(count).split('. ')[1]), ['third', 'eighth', 'tenth'].map((it) => `A${it === 'eighth' ? 'n' : ''} ${it} share would reveal a mistake.`).concat('Another share would reveal a mistake.'));
});

test('a set of 32 strings', () => {
  const two = [it.codex32.encode(2, 'tttt', 'q', new Uint8Array(64).fill(1)), it.codex32.encode(2, 'tttt', 'p', new Uint8Array(64).fill(2))];
  const texts = Array.from('qpzry9x8gf2tvdw0s3jn54khce6mua7l', (index) => it.codex32.derive(two, index));
  const found = said(texts.map((text) => text.replace(/(....)/g, '$1 ')).join('\n'));
  assert.deepEqual([found.tone, found.strings.length, found.verdict], ['right', 32, 'String 17 is the secret itself.']);
  assert.match(found.said[0], /^All 32 agree, and two would be enough\.$/);
  assert.match(said(`${texts.join('\n')}\n${texts.join('\n')}`).verdict, /^This has 8,191 characters|^String 17/);
});

test('every prefix of a text has an answer', () => {
  for (const text of [V0, V1, STRING, strings(CASH, 'acd'), `${LONG[0]} ${LONG[1]}`, `bitcoin:${V0}?amount=1`, at(V0, 10, '?')]) {
    for (let end = 1; end <= text.length; end++) {
      const found = said(text.slice(0, end));
      if (found) assert.ok(found.verdict.length > 10 && Array.isArray(found.notes), text.slice(0, end));
    }
  }
});
