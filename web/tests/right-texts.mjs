// Right texts of every kind that people put in, made here: none of them may be answered by a correction. What has no checksum
// of the library is made by encoders of its own: Blech32 of Liquid, descriptors, CashAddr and Kaspa here, others in
// other-kinds.mjs.
import { ALPHABET, charactersOf, dataOf, numbersFrom, remainderBy, stringOf, textOf } from './reference.mjs';
import { OTHER_KINDS, base58check as base58 } from './other-kinds.mjs';

/** How many texts of each kind are typed. */
export const COUNT = 60;

// ---- encoders

const BLECH32 = { words: [0x7d52fba40bd886n, 0x5e8dbf1a03950cn, 0x1c3a3c74072a18n, 0x385d72fa0e5139n, 0x7093e5a608865bn], low: 55n };
const BLECH32_TARGETS = { blech32: 1n, blech32m: 0x455972a3350f7a1n };

const expanded = (hrp) => {
  const codes = Array.from(hrp, (c) => c.charCodeAt(0));
  return [...codes.map((c) => c >> 5), 0, ...codes.map((c) => c & 31)];
};
const valuesOf = (data) => Array.from(data, (c) => ALPHABET.indexOf(c));

/** A text of Liquid with a checksum of twelve characters. */
export const blechText = (checksum, hrp, data) => {
  const sum = remainderBy(BLECH32, [...expanded(hrp), ...valuesOf(data), ...Array(12).fill(0)], 1n) ^ BLECH32_TARGETS[checksum];
  return `${hrp}1${data}${charactersOf(sum, 12)}`;
};

const CASH = { words: [0x98f2bc8e61n, 0x79b76d99e2n, 0xf33e5fb3c4n, 0xae2eabe2a8n, 0x1e4f43e470n], low: 35n };

/** A text of CashAddr or Kaspa. */
export const cashText = (code, bytes) => {
  const data = dataOf(bytes), before = Array.from(code, (c) => c.charCodeAt(0) & 31);
  const sum = remainderBy(CASH, [...before, 0, ...valuesOf(data), ...Array(8).fill(0)], 1n) ^ 1n;
  return `${code}:${data}${charactersOf(sum, 8)}`;
};

const DESCRIPTOR = { words: [0xf5dee51989n, 0xa9fdca3312n, 0x1bab10e32dn, 0x3706b1677an, 0x644d626ffdn], low: 35n };
const DESCRIPTOR_CHARACTERS = '0123456789()[],\'/*abcdefgh@:$%{}IJKLMNOPQRSTUVWXYZ&+-.;<=>?!^_|~ijklmnopqrstuvwxyzABCDEFGH`#"\\ ';

/** A descriptor with its checksum. */
export const withDescriptorSum = (text) => {
  const codes = Array.from(text, (c) => DESCRIPTOR_CHARACTERS.indexOf(c)), values = [];
  let group = [];
  for (const code of codes) {
    values.push(code & 31);
    group.push(code >> 5);
    if (group.length === 3) values.push(group.splice(0).reduce((sum, it) => 3 * sum + it));
  }
  if (group.length) values.push(group.reduce((sum, it) => 3 * sum + it));
  return `${text}#${charactersOf(remainderBy(DESCRIPTOR, [...values, ...Array(8).fill(0)], 1n) ^ 1n, 8)}`;
};

// ---- kinds

const random = (below, length) => Array.from({ length }, () => below(256));
const characters = (below, length) => Array.from({ length }, () => ALPHABET[below(32)]).join('');
const hex = (below, length) => Buffer.from(random(below, length)).toString('hex');
const from = (below, list) => list[below(list.length)];

const bytesText = (checksum, hrp, ...sizes) => (below) => textOf(checksum, hrp, dataOf(random(below, from(below, sizes))));
const anyText = (checksum, hrp, least, most) => (below) => textOf(checksum, hrp, characters(below, least + below(most - least + 1)));
const program = (hrp, version, size) => (below) =>
  textOf(version === 0 ? 'bech32' : 'bech32m', hrp, ALPHABET[version] + dataOf(random(below, size)));
const upper = (make) => (below) => make(below).toUpperCase();
const extended = (version) => (below) => base58([...Buffer.from(version, 'hex'), 0, ...random(below, 73)]);
const key = (below) => `[${hex(below, 4)}/84h/0h/0h]${extended('0488b21e')(below)}/0/*`;
const confidential = (hrp, version, size) => (below) =>
  blechText(version === 0 ? 'blech32' : 'blech32m', hrp, ALPHABET[version] + dataOf([2 + below(2), ...random(below, 32 + size)]));
const offer = (kind, least, most) => (below) => `${kind}1${characters(below, least + below(most - least + 1))}`;
const joined = (make, join) => (below) => {
  const text = make(below), first = 5 + below(text.length - 10), second = first + 1 + below(text.length - first - 1);
  return [text.slice(0, first), text.slice(first, second), text.slice(second)].join(join);
};
const share = (threshold, index) => (below) =>
  stringOf(`${threshold}${characters(below, 4)}${index}${characters(below, 26)}`);
const amount = (below) => from(below, ['', `${1 + below(9999)}`, `${1 + below(9999)}u`, `${1 + below(9999)}n`, `${1 + below(99)}m`]);
const invoice = (network, least, most) => (below) => anyText('bech32', `ln${network}${amount(below)}`, least, most)(below);
const WORDS = 'abandon ability able about above absent absorb abstract absurd abuse access accident zebra zero zone zoo'.split(' ');

const RIGHT = 'right', OTHER = 'other', WARNING = 'warning';
const ADDRESS = /^This is a valid (?:Bitcoin|Bitcoin testnet|Bitcoin regtest|Litecoin|Liquid|Liquid testnet) address\./, FOREIGN = /^This does not look like a Bech32 text, so this page cannot judge it\.$/, OFFER = /which has no checksum/, CONFIDENTIAL = /^This is a valid confidential address of (?:Liquid|a local Liquid network|the Liquid test network)\./;
const DESCRIBES = /^This is a descriptor, and its checksum is right\./;
const known = (what) => new RegExp(`^This is ${what}, and its Bech32m? checksum is right\\.`);
const secret = (what) => new RegExp(`^This is a secret: ${what}\\.`);

/** Kinds of right texts: a name, what makes one of a source of numbers, the tone of the answer, and its verdict. */
export const KINDS_OF_TEXTS = [
  ['segwit addresses', program('bc', 0, 20), RIGHT, ADDRESS], ['segwit script addresses', program('bc', 0, 32), RIGHT, ADDRESS],
  ['Taproot addresses', program('bc', 1, 32), RIGHT, ADDRESS], ['upper-case addresses', upper(program('bc', 0, 20)), RIGHT, ADDRESS],
  ['addresses of the test network', program('tb', 0, 20), RIGHT, ADDRESS], ['Taproot addresses of a local network', program('bcrt', 1, 32), RIGHT, ADDRESS],
  ['addresses of other versions', (below) => program('bc', 1 + below(16), 2 + below(39))(below), RIGHT, ADDRESS],
  ['Litecoin addresses', program('ltc', 0, 20), RIGHT, ADDRESS], ['Liquid addresses that are not confidential', program('ex', 0, 20), RIGHT, ADDRESS],
  ['addresses of Liquid\'s test network', program('tex', 1, 32), RIGHT, ADDRESS],
  ['Zcash addresses with that part', bytesText('bech32m', 'tex', 20), RIGHT, known('a Zcash address that takes transparent funds alone')],
  ['silent payment addresses', (below) => textOf('bech32m', 'sp', `q${dataOf(random(below, 66))}`), RIGHT, known('a silent payment address')],
  ['silent payment addresses of the test network', (below) => textOf('bech32m', 'tsp', `q${dataOf(random(below, 66))}`), RIGHT, known('a silent payment address of a test network')],
  ['nostr public keys', bytesText('bech32', 'npub', 32), RIGHT, known('a nostr public key')], ['nostr notes', bytesText('bech32', 'note', 32), RIGHT, known('the number of a nostr note')],
  ['nostr profiles', anyText('bech32', 'nprofile', 50, 200), RIGHT, known('a nostr profile')], ['nostr events', anyText('bech32', 'nevent', 50, 300), RIGHT, known('a link to a nostr event')],
  ['nostr pages', anyText('bech32', 'naddr', 50, 900), RIGHT, known('a link to a nostr page')],
  ['nostr private keys', bytesText('bech32', 'nsec', 32), WARNING, secret('a nostr private key')],
  ['age recipients', bytesText('bech32', 'age', 32), RIGHT, known('an age recipient')], ['age recipients of plug-ins', anyText('bech32', 'age1yubikey', 54, 54), RIGHT, known('an age recipient')],
  ['age private keys', upper(bytesText('bech32', 'age-secret-key-', 32)), WARNING, secret('an age private key')],
  ['invoices', invoice('bc', 170, 400), RIGHT, known('a Lightning invoice')], ['long invoices in upper case', upper(invoice('bc', 700, 980)), RIGHT, known('a Lightning invoice')],
  ['invoices of test networks', (below) => invoice(from(below, ['tb', 'tbs', 'bcrt']), 170, 300)(below), RIGHT, known('a Lightning invoice')],
  ['LNURL', upper(anyText('bech32', 'lnurl', 60, 300)), RIGHT, known('a link for Lightning payments \\(LNURL\\)')],
  ['Cosmos addresses', bytesText('bech32', 'cosmos', 20), RIGHT, known('a Cosmos address')], ['Osmosis addresses', bytesText('bech32', 'osmo', 20, 32), RIGHT, known('an Osmosis address')],
  ['Cosmos validators', bytesText('bech32', 'cosmosvaloper', 20), RIGHT, known('a Cosmos address')],
  ['Cardano addresses', bytesText('bech32', 'addr', 57, 29), RIGHT, known('a Cardano address')], ['Cardano addresses for staking', bytesText('bech32', 'stake', 29), RIGHT, known('a Cardano address for staking')],
  ['Sapling addresses', bytesText('bech32', 'zs', 43), RIGHT, known('a shielded Zcash address \\(Sapling\\)')], ['unified addresses', anyText('bech32m', 'u', 100, 250), RIGHT, known('a unified Zcash address')],
  ['Chia addresses', bytesText('bech32m', 'xch', 32), RIGHT, known('a Chia address')], ['Avalanche addresses', (below) => `${from(below, ['X', 'P', 'C'])}-${bytesText('bech32', 'avax', 20)(below)}`, RIGHT, known('an Avalanche address')],
  ['Taproot Assets addresses', anyText('bech32m', 'tapbc', 200, 400), RIGHT, known('a Taproot Assets address')], ['invitations to Fedimint', anyText('bech32m', 'fed1', 200, 400), RIGHT, known('an invitation to a Fedimint federation')],
  ['long invoices', invoice('bc', 1030, 1400), RIGHT, known('a Lightning invoice')], ['long nostr pages', anyText('bech32', 'naddr', 1400, 4900), RIGHT, known('a link to a nostr page')],
  ['post-quantum age recipients', anyText('bech32', 'age1pq', 1946, 1946), RIGHT, known('an age recipient')],
  ['invoices that are longer than the library reads', invoice('bc', 7100, 7400), OTHER, /^This begins like a Lightning invoice, and has 7,[0-9]{3} characters/],
  ['texts of an unknown part', (below) => textOf('bech32', 'abcd', `l${characters(below, 20 + below(40))}`), RIGHT, /^This is a valid Bech32 text\./],
  ['offers', offer('lno', 90, 140), OTHER, OFFER], ['long offers', offer('lno', 300, 300), OTHER, OFFER], ['very long offers', offer('lno', 900, 1400), OTHER, OFFER],
  ['offers joined by +', joined(offer('lno', 90, 200), '+'), OTHER, OFFER], ['offers joined by + on several lines', joined(offer('lno', 90, 200), '+\r\n  '), OTHER, OFFER],
  ['offers in upper case', upper(offer('lno', 90, 300)), OTHER, OFFER], ['requests of invoices', offer('lnr', 150, 400), OTHER, OFFER], ['invoices of offers', offer('lni', 300, 700), OTHER, OFFER],
  ['offers of a short length', (below) => `lno1${characters(below, from(below, [38, 39, 58, 59]))}`, OTHER, OFFER],
  ['confidential Liquid addresses', confidential('lq', 0, 20), RIGHT, CONFIDENTIAL], ['confidential Taproot addresses of Liquid', confidential('lq', 1, 32), OTHER, /confidential Liquid address of another version/],
  ['confidential addresses of a local Liquid', confidential('el', 0, 20), RIGHT, CONFIDENTIAL], ['confidential addresses of Liquid\'s test network', confidential('tlq', 0, 32), RIGHT, CONFIDENTIAL],
  ['descriptors', (below) => withDescriptorSum(`wpkh(${key(below)})`), RIGHT, DESCRIBES], ['descriptors of one key', (below) => withDescriptorSum(`wpkh(02${hex(below, 32)})`), RIGHT, DESCRIBES],
  ['descriptors of several keys', (below) => withDescriptorSum(`wsh(sortedmulti(2,${key(below)},${key(below)}))`), RIGHT, DESCRIBES],
  ['Taproot descriptors', (below) => withDescriptorSum(`tr(${hex(below, 32)})`), RIGHT, DESCRIBES], ['descriptors of an address', (below) => withDescriptorSum(`addr(${program('bc', 0, 20)(below)})`), RIGHT, DESCRIBES],
  ['descriptors with a private key', (below) => withDescriptorSum(`pkh(${extended('0488ade4')(below)}/0/*)`), WARNING, /^This looks like a descriptor with a private key/],
  ['Kaspa addresses', (below) => cashText('kaspa', [0, ...random(below, 32)]), OTHER, /^This begins like a Kaspa address/], ['CashAddr', (below) => cashText('bitcoincash', [8 * below(2), ...random(below, 20)]), OTHER, /^This begins like a Bitcoin Cash address/],
  ['CashAddr in upper case', upper((below) => cashText('bitcoincash', [0, ...random(below, 20)])), OTHER, /^This begins like a Bitcoin Cash address/], ['eCash', (below) => cashText('ecash', [0, ...random(below, 20)]), OTHER, /^This begins like an eCash address/],
  ['CashAddr without its code', (below) => cashText('bitcoincash', [0, ...random(below, 20)]).slice(12), OTHER, FOREIGN], ['Kaspa without its code', (below) => cashText('kaspa', [0, ...random(below, 32)]).slice(6), OTHER, FOREIGN],
  ['older addresses', (below) => base58([0, ...random(below, 20)]), OTHER, /older kind/], ['older script addresses', (below) => base58([5, ...random(below, 20)]), OTHER, /older kind/],
  ['addresses of Ethereum', (below) => `0x${hex(below, 20)}`, OTHER, /0x/], ['extended public keys', extended('0488b21e'), OTHER, /extended public key/],
  ['extended private keys', (below) => extended(from(below, ['0488ade4', '049d7878', '04b2430c', '04358394']))(below), WARNING, /extended private key/],
  ['private keys', (below) => base58([128, ...random(below, 32), 1]), WARNING, /private key/], ['seed words', (below) => Array.from({ length: 12 + 3 * below(5) }, () => from(below, WORDS)).join(' '), WARNING, /seed words/],
  ['Core Lightning secrets', (below) => stringOf(`0${characters(below, 4)}s${dataOf(random(below, 32))}`, 'cl'), RIGHT, /^This is a valid Core Lightning secret/],
  ['unshared codex32 secrets', share(0, 's'), RIGHT, /valid codex32 string/], ['codex32 shares', (below) => share(2 + below(8), from(below, ['a', 'c', 'd', '7']))(below), RIGHT, /valid codex32 string/],
  ['links for payments', (below) => `bitcoin:${program('bc', 1, 32)(below)}?amount=0.1`, RIGHT, ADDRESS], ['links of Lightning', (below) => `LIGHTNING:${upper(invoice('bc', 170, 400))(below)}`, RIGHT, known('a Lightning invoice')],
  ['links with an offer', (below) => `bitcoin:?lno=${offer('lno', 90, 300)(below)}`, OTHER, OFFER], ['links with a silent payment address', (below) => `BITCOIN:?SP=${textOf('bech32m', 'sp', `q${dataOf(random(below, 66))}`).toUpperCase()}`, RIGHT, known('a silent payment address')],
  ['links with several parts', (below) => `bitcoin:${program('bc', 0, 20)(below)}?lightning=${invoice('bc', 170, 300)(below)}&lno=${offer('lno', 90, 300)(below)}`, OTHER, /^This link names three ways to pay/],
  ['links of Liquid', (below) => `liquidnetwork:${confidential('lq', 0, 20)(below)}?amount=1`, RIGHT, CONFIDENTIAL], ['links of nostr', (below) => `nostr:${bytesText('bech32', 'npub', 32)(below)}`, RIGHT, known('a nostr public key')],
  ['links of Zcash', (below) => `zcash:${anyText('bech32m', 'u', 100, 200)(below)}`, RIGHT, known('a unified Zcash address')], ['Stacks addresses', (below) => `SP1${Array.from({ length: 38 }, () => from(below, Array.from('0123456789ABCDEFGHJKMNPQRSTVWXYZ'))).join('')}`, OTHER, /Stacks/],
  ['addresses of payment servers', (below) => `OH1${characters(below, 55).toUpperCase()}`, OTHER, /^This page does not know texts that begin with “oh1”/],
  ...OTHER_KINDS,
];

/** A number of texts of the kind at a place, the same at each run. */
export const textsOf = (at, count = COUNT) => {
  const [, make] = KINDS_OF_TEXTS[at], below = numbersFrom(1000 + at);
  return Array.from({ length: count }, () => make(below));
};
