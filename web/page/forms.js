// The texts of other kinds that the page knows by their form alone: a name, a pattern and a sentence for each. Their checksums
// are not tested.
import { OTHER } from './sentences.js';

const B58 = '[1-9A-HJ-NP-Za-km-z]', BASE32 = '[A-Z2-7]';

// A text in base 58 has some letters of each case. One is not enough: telephones make the first letter of a text upper-case.
const BOTH_CASES = '(?=(?:[^a-z]*[a-z]){3})(?=(?:[^A-Z]*[A-Z]){3})';

// A beginning, and as many characters after it as one of the sizes says.
const base58 = (start, ...sizes) => new RegExp(`^${BOTH_CASES}(?:${start})(?:${sizes.map((size) => `${B58}{${size}}`).join('|')})$`);

const EXTENDED = '[xyztuv]prv';

// Keys of Bitcoin, Dogecoin, Litecoin and Dash, and those protected by a password (BIP-38).
const PRIVATE_KEY = `(?:[KLcQTX]${B58}{50,51}|(?:5[HJK]|6[JKLuvw]|7[qrs]|9[123])${B58}{48,50}|6P${B58}{56})`;

/** The secrets that are told within a longer text too: the pattern and the name of each. */
export const SECRETS_WITHIN = [
  [/(?<![0-9a-z])nsec1/i, 'a nostr private key'], [/(?<![0-9a-z])age-(?:secret-key|plugin)-/i, 'an age private key'],
  [/(?<![0-9a-z])secret-extended-key-/i, 'a Zcash private key'], [new RegExp(`(?<![0-9A-Za-z])${EXTENDED}[0-9A-Za-z]{8}`, 'i'), 'an extended private key'],
  [new RegExp(`(?<![0-9A-Za-z])(?=[0-9A-Za-z]*[a-z])(?=[0-9A-Za-z]*[A-Z])${PRIVATE_KEY}(?![0-9A-Za-z])`), 'a private key'],
  [/(?<![0-9a-z])cl10[02-9ac-hj-np-z]{4}s[02-9ac-hj-np-z]{20}/i, 'a Core Lightning secret'],
];

// The codes before a colon, by what they stand before.
const CODES = {
  'a Kaspa address': ['kaspa', 'kaspatest', 'kaspadev', 'kaspasim'], 'an eCash address': ['ecash', 'ectest', 'etoken'],
  'a Bitcoin Cash address': ['bitcoincash', 'bchtest', 'bchreg', 'simpleledger', 'slptest'], 'a Nexa address': ['nexa', 'nexatest'],
};

// Each row: the name of a kind, its pattern, and the sentence for it, which gets the name and the groups of the pattern. Of the
// rows that fit a text the first is told, so what begins in a way of its own stands before what has only a length.
const FORMS = [
  ['a private key', new RegExp(`^(?=.*[a-z])(?=.*[A-Z])${PRIVATE_KEY}$`), OTHER.privateKey],
  ['the private key of a Casascius coin (a mini key)', base58('S', 21, 25, 29), OTHER.privateKey],
  ['an extended private key', new RegExp(`^(${EXTENDED})[0-9A-Za-z]`, 'i'), OTHER.extendedKey],
  ['an extended public key', /^([xyztuv]pub)[0-9A-Za-z]/i, OTHER.publicKey],
  ['the secret of an XRP Ledger account', base58('s|sEd', 28), OTHER.privateKey],
  ['the secret of a Stellar account', new RegExp(`^S${BASE32}{55}$`), OTHER.privateKey],

  ['an older kind of Bitcoin address', /^(?=.*[a-z])(?=.*[A-Z])([13])[0-9A-Za-z]{7,35}$/, OTHER.older],
  ['an older kind of Bitcoin testnet address', base58('[mn]|2[MN]', 33), OTHER.looks],
  ['an older kind of Litecoin address', base58('[LM]', 33), OTHER.looks],
  ['a Dogecoin address', base58('[DA9]', 33), OTHER.looks], ['a Dash address', base58('[X7]', 33), OTHER.looks],
  ['a Tron address', base58('T', 33), OTHER.looks], ['an XRP Ledger address', base58('r', '24,34'), OTHER.looks],
  ['an XRP Ledger X-address', base58('[XT]', 46), OTHER.looks], ['a transparent Zcash address', base58('t[123m]', 33), OTHER.looks],
  ['a Tezos address', base58('tz[1-4]|KT1', 33), OTHER.looks], ['a Monero address', base58('[48]', 94, 105), OTHER.looks],
  ['a Cardano address of the Byron era', base58('Ae2|DdzFF|37bt', '50,110'), OTHER.looks],
  ['a Polkadot address, or one of a network that is built like it', base58('[15C-J]', 46, 47), OTHER.looks],
  ['a Solana address, or another text in base 58', base58('', '32,44'), OTHER.looks],
  ['a signature or a private key of Solana', base58('', '86,88'), OTHER.mayBeKey],
  ['a text in base 58, as addresses of many networks are', base58('', '20,'), OTHER.looks],

  ['a Stellar address', new RegExp(`^(?:G${BASE32}{55}|M${BASE32}{68})$`), OTHER.looks],
  ['a Nano address', /^(?:nano|xrb)_[13][13-9a-km-uw-z]{59}$/i, OTHER.looks], ['a TON address', /^[EUk0]Q[A-Za-z0-9_-]{46}$/, OTHER.looks],
  ['a Stacks address', /^S[PMTN][0-9A-HJKMNP-TV-Z]{37,39}$/, OTHER.looks],

  ['an Ethereum address or another number in base 16', /^0x/i, OTHER.hex],
  ['a public key', /^(?:0[23][0-9a-f]{64}|04[0-9a-f]{128})(?:@.*)?$/i, OTHER.unchecked],
  ['a partially signed transaction (PSBT)', /^(?:cHNidP|70736274ff)/i, OTHER.unchecked],
  ['a transaction id, or another number of 32 bytes in base 16', /^[0-9a-f]{64}(?::[0-9]+)?$/i, OTHER.mayBeKey],
  ['a number in base 16', /^(?:[0-9a-f]{2}){16,}$/i, OTHER.unchecked],
  ['an identifier in base 16 (a UUID)', /^[0-9a-f]{8}(?:-[0-9a-f]{4}){3}-[0-9a-f]{12}$/i, OTHER.unchecked],
  ['an e-mail address, or a Lightning address, which has the same form', /^[^\s@]+@[^\s@]+\.[^\s@]+$/, OTHER.unchecked],
  ['the name of a web site or of a wallet', /^[a-z0-9-]+(?:\.[a-z0-9-]+)*\.[a-z]{2,10}$/i, OTHER.unchecked],
  ...Object.entries(CODES).map(([what, codes]) => [what, new RegExp(`^((?:${codes.join('|')}):)`, 'i'), OTHER.code]),
  ['a text after a code', /^([a-z][a-z0-9+.-]{0,40}:)/i, OTHER.unknownCode],
];

/** What is said of a text that is of another kind, or null. */
export const otherKind = (text) => {
  const row = FORMS.find(([, form]) => form.test(text));
  if (!row) return null;
  const [what, form, sentence] = row, [, ...groups] = form.exec(text), { said = [], ...found } = sentence(what, ...groups);
  return { tone: found.warnings ? 'warning' : 'other', said, ...found };
};
