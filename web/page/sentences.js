// Every sentence that the page says, in one table, to be read through and aloud. Those of a refusal of the library itself
// stand in src/reasons.js, since users of the package get them too.
import { C } from '../src/declared.js';
import { shown } from '../src/reasons.js';
import { capital, counted, grouped, listed, numeral } from './words.js';

// A character in a sentence: a letter or a digit stands alone, and others in quotes or by their names.
const letter = (character) => (/^[0-9A-Za-z]$/.test(character) ? character : shown(character));
const place = (at) => grouped(at + 1);
const these = (count, one, more) => (count === 1 ? one : more);

// ---- what stands around a text

export const AROUND = {
  marks: (marks) => `Invisible characters were left out: ${marks.map(shown).join(', ')}.`,
  quotes: 'The quotes or punctuation around it were left out.',
  spaces: 'The spaces in it were left out.',
  chain: (mark) => `The “${mark}” before it names a chain of Avalanche and has no part in the checksum. It was left out here.`,
  behind: 'What follows the “?” was left out, since it is not part of the address.',
  labels: (labels, isMore) => {
    const each = labels.map((it) => `“${it}”`);
    return `These words beside the strings were left out: ${listed([...each, ...(isMore ? ['others'] : [])])}.`;
  },
};

const WAYS = {
  address: 'the address', sp: 'the silent payment address (sp=)', lno: 'the Lightning offer (lno=)',
  lightning: 'the Lightning invoice (lightning=)', bc: 'the address (bc=)', tb: 'the address (tb=)',
};

export const LINK = {
  taken: (scheme) => `The “${scheme}” before it was left out.`,
  more: 'The link also has other parts, such as an amount or a label. They are not read here.',
  empty: 'This link has no address in it.',
  other: 'It may have parts that this page does not read.',
  several: (count) => `This link names ${numeral(count)} ways to pay.`,
  each: 'Each of them is read below. A wallet takes one of them.',
  title: (name) => capital(WAYS[name]),
  only: (name) => `It was taken from ${WAYS[name].replace(/^the .* \((.*)\)$/, 'the part “$1” of the link')}.`,
};

// ---- warnings, each of them a block above the button that it is about

export const CAUTION = 'Compare this with the source, character by character, before you use it: a correction is a guess.';

const OFFLINE = 'only on a computer that is offline, with a copy of this page on its disk, and clear the field at the end';

export const WARNINGS = {
  string: `Type it ${OFFLINE}: whoever sees this string has the secret, or a share of it.`,
  strings: `Type them ${OFFLINE}: whoever sees these strings has the secret, or shares of it.`,
  key: 'Clear the field now, unless this computer is offline: whoever sees this key can use it. Nothing has left this page.',
  wallet: 'Clear the field now. Whoever sees this can take what is in the wallet. Nothing has left this page.',
  words: 'Clear the field now. Whoever sees these words can take what is in the wallet. Nothing has left this page.',
};

// ---- texts that the page cannot test, and texts of other kinds

const OFFERS = { o: 'offer', r: 'invoice request', i: 'invoice' };
const COMPARE = 'Compare it with the source, character by character, before you use it.';
const NO_BECH32 = 'It is not a Bech32 text, so this page can neither test nor correct it.';
const OWN_CHECKSUM = 'It has a checksum of its own. This page does not read it, so it can neither test nor correct this.';

export const OTHER = {
  offer: (kind) => ({
    verdict: `This begins like a Lightning ${OFFERS[kind]} (BOLT12), which has no checksum.`,
    said: [`So a mistake in it cannot be found, and this page can neither test nor correct it. ${COMPARE}`],
  }),
  strange: (at, character) => `Character ${place(at)}, ${shown(character)}, cannot be part of it.`,
  descriptor: { verdict: 'This looks like a descriptor: it tells a wallet how its addresses are made.' },
  descriptorSecret: 'This looks like a descriptor with a private key in it.',
  // Of the kinds that are known by their form (forms.js): what is said of each, by its name and what its pattern has in groups.
  looks: (what) => ({ verdict: `This looks like ${what}.`, said: [OWN_CHECKSUM, COMPARE] }),
  older: (what, digit) => ({ verdict: `This looks like ${what}, which begins with ${digit}.`, said: [OWN_CHECKSUM] }),
  code: (what, code) => ({ verdict: `This begins like ${what} (“${code}”).`, said: [OWN_CHECKSUM, COMPARE] }),
  unknownCode: (what, code) => ({
    verdict: `This begins with “${code}”, which this page does not know.`,
    said: ['It may be a link, or an address with another checksum. This page can neither test nor correct it.'],
  }),
  unchecked: (what) => ({ verdict: `This looks like ${what}.`, said: [NO_BECH32] }),
  mayBeKey: (what) => ({ verdict: `This looks like ${what}.`, said: [NO_BECH32, 'If it is a private key, clear the field now.'] }),
  hex: (what) => ({ verdict: `This begins with “0x”, like ${what}.`, said: [NO_BECH32] }),
  publicKey: (what, name) => ({
    verdict: `This is ${what} (${name}), not an address. A wallet makes addresses from it.`,
    said: [OWN_CHECKSUM, 'Whoever has it can see all addresses of the wallet.'],
  }),
  extendedKey: (what, name) => ({ verdict: `This is ${what} (${name}). Do not type it into any page.`, warnings: [WARNINGS.wallet] }),
  privateKey: (what) => ({ verdict: `This looks like ${what}. Do not type it into any page.`, warnings: [WARNINGS.wallet] }),
  within: (what) => `There is a secret in this text: ${what}. Do not type it into any page.`,
  words: {
    verdict: 'These look like seed words. Do not type them into any page.',
    said: ['This page has no use for seed words. It recognises them by their looks alone, without a list of words.'],
  },
  same: { verdict: 'The same text stands here more than once.', said: ['Choose it to read it:'] },
  several: (count, kind) => ({
    verdict: `${counted(count, '', kind)} stand here, and this page reads one at a time.`, said: ['Choose one of them:'],
  }),
  tooLong: (length) => ({
    verdict: `This has ${grouped(length)} characters, which is more than this page reads, so it cannot judge this.`,
    said: [`A Bech32 text has at most ${grouped(C.BECH32_MAX_LONG_TEXT)} characters here, an address `
      + `${C.BECH32_MAX_SEGWIT_TEXT} and a codex32 string ${C.CODEX32_MAX_LONG_TEXT}.`],
  }),
  long: (what, length, most) => ({
    verdict: `This begins like ${what}, and has ${grouped(length)} characters.`,
    said: [`This page tests texts of at most ${grouped(most)} characters, so it can neither test nor correct this.`, COMPARE],
  }),
  begun: 'An address or a codex32 string begins like this.',
  // No kind that the page knows.
  foreign: 'This does not look like a Bech32 text, so this page cannot judge it.',
  unknownPart: (part) => ({
    verdict: `This page does not know texts that begin with “${part}1”, so it cannot judge this one.`,
    said: ['Neither Bech32m nor Bech32 accepts it. It may have another checksum, or none, or it may be mistyped.'],
  }),
};

// ---- valid texts

const PAYS = {
  '0/20': 'It pays to the hash of a public key (P2WPKH).',
  '0/32': 'It pays to the hash of a script (P2WSH).',
  '1/32': 'It pays to a public key or to one of several scripts (Taproot).',
};

export const VALID = {
  address: (network) => `This is a valid ${network} address.`,
  strangeAddress: (name) => `This is a valid ${name} address of a network that this page does not know.`,
  text: (name) => `This is a valid ${name} text.`,
  known: (what, name) => `This is ${what}, and its ${name} checksum is right.`,
  secret: (what, name) => `This is a secret: ${what}. Its ${name} checksum is right.`,
  network: (network, name) => `It is a segwit address of ${network}. Its ${name} checksum is right.`,
  otherNetwork: (part) => `It is built like a segwit address, but this page knows no network with the part “${part}”.`,
  pays: (version, size) => (PAYS[`${version}/${size}`] ? [PAYS[`${version}/${size}`]] : []),
  program: (version, size) => `Witness version ${version}, program of ${size} bytes:`,
  is: (what) => `It is ${what}.`,
  begins: (what) => `It begins like ${what}.`,
  invoice: 'This page tests its checksum, but not its amount or its signature.',
  alone: 'This page tests its checksum and nothing else.',
  long: (most) => `It has more than ${grouped(most)} characters: its checksum may be right by chance although a few of them are wrong.`,
  upper: 'age accepts this key only in upper case.',
  unknown: (part, size) => `It is a text with the part “${part}” and ${these(size, 'one character', `${grouped(size)} characters`)} of data.`,
  // A checksum that is right, and a text that is none of its kind all the same.
  broken: (name) => `The ${name} checksum is right, but this is not a valid address. Do not send to it.`,
  brokenText: (name, what) => `The ${name} checksum is right, but this is not ${what}. Do not use it.`,
  why: (why) => `It begins like an address. ${why}`,
  typed: (name, what, why) => `As typed, it has a right ${name} checksum, but it is not ${what}. ${why}`,
  anAddress: 'a valid address',
  otherChecksum: (name) => `An address of this version must have the other checksum, ${name}.`,
  kindChecksum: (name) => `Such a text must have the other checksum, ${name}.`,
  kindSize: (size, wanted) => `It has ${grouped(size)} characters, and such a text has ${listed(wanted.map(grouped), 'or')}.`,
};

// ---- lengths of addresses

export const LENGTH = {
  kind: (version) => (version === 1 ? 'a Taproot address (version 1)' : `an address of version ${version}`),
  has: (count, isShort, kind, lengths) =>
    `${counted(count, 'character', 'characters')}${isShort ? ' so far' : ''}. ${capital(kind)} has ${listed(lengths, 'or')}.`,
  soFar: (what, count, lengths) =>
    `This begins like ${what}: ${counted(count, 'character', 'characters').toLowerCase()} so far, of ${listed(lengths.map(grouped), 'or')}.`,
  missing: (count) => `If this is all of it, ${numeral(count)} ${these(count, 'character is', 'characters are')} missing.`,
  more: (count) => `${counted(count, 'character may be', 'characters may be')} too many.`,
};

// ---- descriptors

export const DESCRIPTOR = {
  name: 'descriptor',
  valid: 'This is a descriptor, and its checksum is right.',
  right: 'Its checksum is right.',
  tested: 'This page tests its checksum, and reads nothing else of it.',
  seen: 'Whoever has it can see all addresses of the wallet.',
  none: 'It does not end in “#” and a checksum, so a mistake in it cannot be found.',
  wouldBe: (sum) => `If it is right as it stands, its checksum is “#${sum}”.`,
  wrong: 'As typed, its checksum is wrong.',
  mended: (count) => `${withChanges(count)} its checksum is right. Compare the addresses of the wallet.`,
  nothing: 'No change of one character makes it right. Nor does leaving one out, adding one, or swapping two.',
  tooLong: 'It is too long for this page to correct.',
};

// ---- confidential addresses of Liquid

export const LIQUID = {
  name: 'address',
  valid: (network) => `This is a valid confidential address of ${network}.`,
  tested: 'This page tests its Blech32 checksum and its lengths, but not whether its blinding key is one.',
  key: 'Blinding key:',
  program: (size) => `Witness version 0, program of ${size} bytes:`,
  otherVersion: {
    verdict: 'This begins like a confidential Liquid address of another version than 0.',
    said: ['This page does not read its checksum, so it can neither test nor correct this address.', COMPARE],
  },
  wrong: 'As typed, the Blech32 checksum is wrong.',
  mended: (count) => `${withChanges(count)} it is a valid confidential address of Liquid.`,
  nothing: 'More than three characters are wrong, counting two unreadable ones as one.',
};

// ---- corrections

const shouldBe = ({ at, from, to }) => `character ${place(at)} should be ${letter(to)}, not ${letter(from)}`;

const withChanges = (count) => (count === 0 ? 'In lower case' : these(count, 'With this change', 'With these changes'));

// An edit by its kind, its place and its characters as they were typed.
const EDITS = {
  swapped: (at, [first, second]) =>
    `Two neighbours are swapped: characters ${place(at)} and ${place(at + 1)} should be ${second}${first}, not ${first}${second}.`,
  leftOut: (at, [it]) => `One character is too many: character ${place(at)}, ${letter(it)}.`,
  putIn: (at, [it]) => `One character is missing: ${letter(it)}, as character ${place(at)}.`,
};

export const MENDED = {
  // Wrong characters are counted where they are more than `most`.
  wrong: (changes, most) => {
    if (changes.length > most) return `${counted(changes.length, 'character is', 'characters are')} wrong.`;
    return `${capital(changes.map(shouldBe).join('; '))}.`;
  },
  restored: (changes, most) => {
    if (changes.length > most) return `${counted(changes.length, '', 'unreadable characters')} are restored.`;
    if (changes.length === 1) return `The unreadable character ${place(changes[0].at)} is ${letter(changes[0].to)}.`;
    const each = changes.map(({ at, to }) => `${place(at)} is ${letter(to)}`);
    return `The unreadable characters are restored: ${listed(each)}.`;
  },
  change: ({ at, from, to }) => (from === '?' ? `Character ${place(at)}, which is unreadable, is ${letter(to)}.`
    : `${capital(shouldBe({ at, from, to }))}.`),
  beginning: (from, to) => (from ? `The beginning should be ${to}, not ${from}.` : `The beginning ${to} is missing.`),
  cases: 'Upper-case and lower-case letters are mixed. In lower case the text is valid.',
  edit: (kind, at, characters) => EDITS[kind](at, characters),
  several: (count, what) => `${counted(count, '', what)} are close to this. At most one of them is the one you want.`,
  left: (count) => `${counted(count, 'more is', 'more are')} not shown.`,
  address: (count, network) => `${withChanges(count)} it is a valid ${network} address.`,
  text: (count, name) => `${withChanges(count)} the ${name} checksum is right.`,
  weakness: 'Bech32 accepts a text that ends in “p” with any number of “q” before that “p”. Check the end of this one twice.',
};

// ---- what is seen without a checksum

const MAY = 'Letters and digits can stand there, but not 1, b, i or o.';
const named = ({ at, character }, head) => `${head}haracter ${place(at)}, ${shown(character)}`;

export const SEEN = {
  mixed: 'Upper-case and lower-case letters are mixed, and a text has one case. It is read in lower case here.',
  // Characters that are no data, or may be another; `most` are told by name.
  strange: (all, most, areData) => {
    const why = areData ? 'An “l” among upper-case letters may be another character.' : MAY;
    if (all.length === 1) return `${named(all[0], 'C')}, is treated as unreadable. ${why}`;
    const each = all.slice(0, most).map((it) => named(it, 'c')).join('; ');
    const more = all.length > most ? `; and ${grouped(all.length - most)} more` : '';
    return `${counted(all.length, '', 'characters are treated as unreadable')}: ${each}${more}. ${why}`;
  },
  unread: (count) => `${counted(count, 'character is', 'characters are')} unreadable.`,
};

// ---- no correction

const CHANGES = [null, 'no change of one character', 'no change of one or two characters'];

export const NONE = {
  address: 'address', text: 'text',
  isWrong: (what) => `This ${what} is wrong; do not use it.`,
  found: 'No correction was found.',
  wrong: 'As typed, the checksum is wrong for both Bech32m and Bech32.',
  wrongFor: (name) => `As typed, the ${name} checksum is wrong.`,
  long: (most) => `This page corrects texts of at most ${grouped(most)} characters, so it does not correct this.`,
  unsure: 'Write ? for each character that you are not sure of. Then more can be restored.',
  tooMany: (most) => `At most ${numeral(most)} unreadable characters can be restored.`,
  tried: (errors, unread, isAddress) => {
    const valid = isAddress ? 'a valid address' : 'a valid text of its kind', makes = `makes it ${valid}`;
    if (unread === 0) return `${capital(CHANGES[errors])} ${makes}. Nor does leaving one out, adding one, or swapping two.`;
    const which = these(unread, 'Whatever the unreadable character is', 'Whatever the unreadable characters are');
    return errors === 0 ? `${which}, this is not ${valid}.`
      : `${which}, ${CHANGES[errors].replace('change of', 'further change of')} ${makes}.`;
  },
  beginning: (from, all) => `It begins with “${from}”. Bitcoin addresses begin with ${all}.`,
};

// ---- codex32 strings

const size = ({ bytes }) => (bytes === null ? 'a payload that is not a whole number of bytes' : `a payload of ${bytes} bytes`);

export const STRING = {
  name: 'string',
  valid: 'This is a valid codex32 string.',
  wrong: 'As typed, the codex32 checksum is wrong.',
  mended: (count) => `${withChanges(count)} it is a valid codex32 string.`,
  lightning: 'a Core Lightning secret',
  validLightning: 'This is a valid Core Lightning secret (codex32).',
  lightningSize: (size, wanted) => `It has ${grouped(size)} characters, and a Core Lightning secret has ${wanted}.`,
  extension: 'Its beginning “cl” is that of Core Lightning. Codex32 itself (BIP-93) knows “ms” alone, and programs for it may not take this string.',
  nothing: 'More than four characters are wrong, counting two unreadable ones as one.',
  none: (why) => `The nearest text with a right checksum is not a codex32 string. ${why}`,
  facts: ({ threshold, identifier, shareIndex, length, ...it }) =>
    `Threshold ${threshold}, identifier “${identifier}”, share index “${shareIndex}”, ${length} characters with ${size(it)}.`,
  itself: 'It is the secret itself, not a share of it.',
  share: ({ shareIndex, threshold }) => `It is share “${shareIndex}” of a secret. It takes ${numeral(threshold)} shares to recover it.`,
  others: 'Put in the other shares as well, each on a line of its own.',
  secret: 'The secret as a codex32 string:',
  bytes: (count) => `Its ${count} bytes:`,
  noBytes: 'Its payload is not a whole number of bytes.',
};

// ---- sets of codex32 strings

const strings = (places) => (places.length === 1 ? `String ${places[0] + 1}` : `Strings ${listed(places.map((it) => String(it + 1)))}`);
const name = (at) => `string ${at + 1}`;
const NEXT = [null, 'A second', 'A third', 'A fourth', 'A fifth', 'A sixth', 'A seventh', 'An eighth', 'A ninth', 'A tenth'];
const CONTRADICT = 'These strings contradict each other';
const more = (count) => `${counted(count, 'more share is', 'more shares are')} needed`;

const DIFFER = {
  threshold: (own, other) => `its threshold is ${own}, not ${other}`,
  identifier: (own, other) => `its identifier is “${own}”, not “${other}”`,
  length: (own, other) => `it has ${own} characters, not ${other}`,
};

export const SET = {
  unread: (at) => `String ${at + 1} cannot be read`,
  titleOf: (at, shareIndex) => `String ${at + 1}: ${shareIndex === null ? 'the secret itself' : `share “${shareIndex}”`}`,
  none: 'None of these strings is valid, and none can be corrected.',
  few: (missing, wanted) => `${more(missing)}: the threshold is ${wanted}.`,
  enough: (count) => `These ${numeral(count)} shares belong together and recover the secret.`,
  noSpare: (count) => 'Nothing checks them yet: a share of another secret, or a wrong correction, would give another secret unnoticed. '
    + `${NEXT[count] ?? 'Another'} share would reveal a mistake.`,
  spare: (count, wanted) => `All ${numeral(count)} agree, and ${numeral(wanted)} would be enough.`,
  itself: (at) => `${capital(name(at))} is the secret itself.`,
  together: (missing) => `${more(missing)} to see whether they belong together.`,
  clash: (first, second, shareIndex) =>
    `${CONTRADICT}: ${name(first)} and ${name(second)} both have the share index “${shareIndex}”, but differ.`,
  oneOfTwo: 'At most one of them is right. Take the other one out.',
  contradict: `${CONTRADICT}.`,
  someOther: 'At least one of them is of another secret, or is wrong although its checksum is right.',
  odd: (at) => `${CONTRADICT}: ${name(at)} does not agree with the others.`,
  rest: (count) => `The other ${numeral(count)} agree and recover a secret.`,
  mended: (places) => `${strings(places)} ${these(places.length, 'was corrected, and the correction', 'were corrected, and a correction')} may be wrong.`,
  leftOut: (places) => `${strings(places)} ${these(places.length, 'is left out, since it', 'are left out, since they')} cannot be corrected.`,
  remark: (who, said) => `${capital(who)} ${said}`,
  name, it: 'it',
  isClash: (first) => `has the share index of ${name(first)}, but is not the same.`,
  isSame: (first) => `is the same as ${name(first)}, and counts once.`,
  isOther: (first, part, own, other) => `is of another set than ${name(first)}: ${DIFFER[part](own, other)}.`,
};

// ---- the page for sharing: splitting, sheets of paper, recovering

export const NETWORK = {
  online: 'This browser reports a network connection. Disconnect this computer before you type or make a secret.',
  offline: 'This browser reports no network connection. That can be wrong: check the cable and the wireless switch yourself.',
  loaded: 'This page was not opened from a disk. Save it, and open the copy on a computer without network.',
};

export const FORGET = {
  button: 'Forget all',
  done: 'All fields, shares and sheets of this page are cleared.',
  kept: 'The browser and the system may still hold copies in memory, and on the disk where memory was swapped out. '
    + 'Close the browser and turn the computer off.',
};

const PAPER = 'under “Recover a secret”, from the paper';

export const SPLIT = {
  title: 'Split a secret',
  kind: 'Which secret',
  kinds: { 16: 'A new one of 16 bytes', 32: 'A new one of 32 bytes', own: 'My own, as hexadecimal digits' },
  own: 'Your secret, in 32 or 64 hexadecimal digits',
  ownHelp: 'These are its 16 or 32 bytes: the seed that a wallet makes its keys from (BIP-32). Seed words are not read here.',
  threshold: 'Shares needed to recover it', count: 'Shares in all',
  identifier: 'Identifier',
  identifierHelp: 'Left empty, it is drawn at random, which is best: each split needs a new one. '
    + 'Otherwise four letters or digits, but not 1, b, i or o.',
  make: 'Make the shares', makeOthers: 'Make other shares in place of these',
  // What is wrong with the fields.
  empty: 'Type your secret first.',
  strange: (at, character) => `Character ${place(at)}, ${shown(character)}, is not a hexadecimal digit. These are 0 to 9 and a to f.`,
  size: (count) => `${counted(count, 'hexadecimal digit stands', 'hexadecimal digits stand')} here. `
    + 'A secret of 16 bytes has 32 of them, and one of 32 bytes has 64.',
  string: 'This begins like a codex32 string. Put it in under “Recover a secret”.',
  few: (count, threshold) => `${counted(count, '', 'shares')} are too few: ${numeral(threshold)} are needed to recover the secret.`,
  identifierStrange: (at, character) => `Character ${place(at)} of the identifier, ${shown(character)}, cannot stand there. `
    + 'Letters and digits can, but not 1, b, i or o.',
  identifierSize: (count) => `An identifier has four characters, and this one has ${numeral(count)}.`,
  noRandom: (error) => `No shares were made, because the browser gave no random bytes. ${error}`,
  differ: 'The shares that were made do not recover the secret, so they are not shown. This is a fault of the browser or of this page.',
  // What was made.
  made: (count, threshold) => `${counted(count, '', 'shares')} are made. `
    + (count === threshold ? 'All of them are needed to recover the secret.' : `Any ${numeral(threshold)} of them recover the secret.`),
  tried: 'All of them together were tried, and gave the secret back.',
  shown: `To see the new secret, put shares in ${PAPER}. That also tests what is on it.`,
  test: `To test the paper, put shares in ${PAPER}.`,
  apart: 'Shares of two splits do not go together, even if the secret is the same. '
    + 'If both have the same identifier, they recover another secret without a warning.',
  seen: 'Show a share only where nobody else and no camera sees the screen.',
  printed: 'Printing makes copies: the print queue of this computer and the memory of the printer may keep them. '
    + 'Use a printer on a cable that has no network, do not print to a file, or copy the shares by hand.',
  printAll: 'Print all sheets', print: 'Print this sheet', show: 'Show this share', hide: 'Hide this share',
};

export const SHEET = {
  title: (shareIndex, identifier) => `Share “${shareIndex}” of the secret “${identifier}”`,
  number: (at, count) => `Sheet ${at + 1} of ${count}`,
  facts: ({ threshold, identifier, shareIndex, length }) =>
    `Threshold ${threshold}, identifier “${identifier}”, share index “${shareIndex}”, ${length} characters.`,
  wanted: (count, threshold) => (count === threshold ? `All ${numeral(count)} shares are needed to recover the secret. `
    : `Any ${numeral(threshold)} of the ${numeral(count)} shares recover the secret, so whoever has ${numeral(threshold)} of them has it. `)
    + 'Keep each sheet in another place.',
  text: (from, to) => `The share as a codex32 string (BIP-93), places ${from} to ${to}:`,
  checksum: (from, to) => `Its checksum, places ${from} to ${to}:`,
  boxes: 'A box for each place, to mend it by hand:',
  mend: 'Copy what you can read, and write ? for the rest. The page that made this sheet, share.html, corrects up to four wrong '
    + 'characters or eight unreadable ones; a wrong one counts as two. Use it on a computer without network.',
  alphabet: 'The characters that can stand behind “ms1”, with their values:',
  rows: { value: 'Value', character: 'Character' },
  none: 'There is no sheet to print: make shares first.',
};

export const RECOVER = {
  title: 'Recover a secret',
  label: 'One share',
  help: 'Put in one share after another. Each begins with ms1. Write ? for each character that you are not sure of.',
  add: 'Add this string', addMended: 'Add the corrected string',
  begun: 'A codex32 string begins like this.',
  other: 'This is not a codex32 string. Those begin with ms1.',
  several: 'Several strings stand here. Put them in one after another.',
  remove: (at) => `Remove string ${at + 1}`,
  seen: 'Show the secret only where nobody else and no camera sees the screen.',
};

// ---- the page around an answer

export const PAGE = {
  example: 'An example with one wrong character: ',
  copy: 'Copy it', copied: 'Copied', notCopied: 'It was not copied. Select it and copy it.',
  show: 'Show the secret', hide: 'Hide the secret', facts: ['Show its bytes in base 16', 'Hide its bytes in base 16'],
  isShown: 'The secret is shown below the button.', isHidden: 'The secret is hidden.',
  stopped: 'The library stopped without an answer and was started again. This is a fault of the browser or of this page. '
    + 'Do not rely on an answer for this text.',
  fault: (error) => `This page has a fault, and there is no answer: ${error}`,
  cannotRun: (error) => `This browser does not run the library: ${error}`,
  memory: [
    'This browser has 64-bit WebAssembly memory, so the modules run as they were built.',
    'This browser has no 64-bit WebAssembly memory, so it runs modules that were lowered to 32 bits. That step is not proved.',
  ],
};
