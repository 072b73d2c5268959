// Why a call refuses: a code, a sentence, and the place of the character at fault.
//
// The library tells a number, the place of a fault (bech32_fault) and the lengths of the parts (bech32_check). Found here,
// by looking at the text once more, is what no function tells: where the separator of a text with a short data part or of
// no address stands, the value of a witness version, how long a text would be, and where one differs from `ms`. This is
// no part of what is proved.
import { C } from './declared.js';
import { CODES, NUMBERS, SENTENCES } from './refusals.js';

/** The characters of the elements 0 to 31. */
export const ALPHABET = 'qpzry9x8gf2tvdw0s3jn54khce6mua7l';

const CHECKSUM_LENGTH = 6;

// Code points that do not show what they are.
const NAMES = {
  9: 'a tab', 10: 'a line break', 13: 'a line break', 32: 'a space', 0xa0: 'a no-break space', 0xad: 'a soft hyphen',
  0x200b: 'a space of no width', 0x200c: 'a mark that is not seen', 0x200d: 'a mark that is not seen',
  0x200e: 'a left-to-right mark', 0x200f: 'a right-to-left mark', 0x202a: 'a mark of direction',
  0x202b: 'a mark of direction', 0x202c: 'a mark of direction', 0x202d: 'a mark of direction',
  0x202e: 'a mark of direction', 0x2066: 'a mark of direction', 0x2067: 'a mark of direction',
  0x2068: 'a mark of direction', 0x2069: 'a mark of direction', 0x212a: 'the Kelvin sign, which looks like K',
  0xfeff: 'a mark that is not seen',
};

const isGraphic = (c) => c.length === 1 && c >= '!' && c <= '~';
const isUpper = (c) => c >= 'A' && c <= 'Z';
const lower = (c) => (isUpper(c) ? c.toLowerCase() : c);

/** A text in lower case, ASCII letters alone: the Kelvin sign stays what it is. */
export const asciiLower = (text) => text.replace(/[A-Z]/g, (c) => c.toLowerCase());

const grouped = (n) => String(n).replace(/\B(?=(\d{3})+$)/g, ',');
const counted = (n, one, many) => `${grouped(n)} ${n === 1 ? one : many}`;

/** A character as a sentence shows it: nothing that could be mistaken, or that would change the sentence. */
export const shown = (character) => {
  if (isGraphic(character)) return `“${character}”`;
  const code = character.codePointAt(0);
  const point = `U+${code.toString(16).toUpperCase().padStart(4, '0')}`;
  if (code >= 0xd800 && code <= 0xdfff) return `half of a character (${point})`;
  return code in NAMES ? `${NAMES[code]} (${point})` : point;
};

/** Which character of a text stands at a place, counted from 1; a character beyond U+FFFF counts once. */
export const ordinal = (text, place) => Array.from(text.slice(0, place)).length + 1;

// The characters of a text, each with its place.
const placed = (text) => {
  let place = 0;
  return Array.from(text, (character) => {
    const it = { character, place };
    place += character.length;
    return it;
  });
};

const characterAt = (text, place) => String.fromCodePoint(text.codePointAt(place));
const at = (text, place) => `Character ${grouped(ordinal(text, place))}, ${shown(characterAt(text, place))},`;

// ---- human-readable parts

const bytesOf = (text) => new TextEncoder().encode(text).length;

// The length of a text, in characters where each is a byte.
const measured = (text) => {
  const bytes = bytesOf(text);
  return bytes === text.length ? counted(bytes, 'character', 'characters') : `${grouped(bytes)} bytes`;
};

// The first byte of a text that is too much, by the character that has it. No character has less than a byte.
const beyondBytes = (text, most) => {
  let bytes = 0;
  return placed(text.slice(0, most + 1)).find(({ character }) => (bytes += bytesOf(character)) > most)?.place ?? null;
};

const cases = (text, place) => {
  const kinds = ['a lower-case letter, and an upper-case one', 'an upper-case letter, and a lower-case one'];
  const kind = kinds[Number(isUpper(text[place]))];
  return { place, sentence: `${at(text, place)} is ${kind} stands before it: all letters have one case.` };
};

// What is wrong with no one character of a text.
const nowhere = (sentence) => ({ place: null, sentence });

// Of a human-readable part, with the place of the character at fault.
const ofHrp = (number, hrp, place) => {
  switch (number) {
    case NUMBERS.HRP_EMPTY:
      return { place: 0, sentence: 'Nothing stands before the separator “1”: the human-readable part is missing.' };
    case NUMBERS.HRP_TOO_LONG: {
      const sentence = `The human-readable part, before the last “1”, has ${measured(hrp)}; it has at most ${C.BECH32_MAX_HRP}.`;
      return { place: beyondBytes(hrp, C.BECH32_MAX_HRP), sentence };
    }
    case NUMBERS.HRP_NOT_ASCII: case NUMBERS.HRP_INVALID: {
      const why = number === NUMBERS.HRP_NOT_ASCII ? 'is not ASCII, and stands in' : 'may not stand in';
      return { place, sentence: `${at(hrp, place)} ${why} the human-readable part, before the last “1”.` };
    }
    case NUMBERS.HRP_MIXED_CASE: return cases(hrp, place);
    default: return null;
  }
};

// ---- texts

const invalidCharacter = (text, place) => {
  const where = text.includes('1') ? 'behind the last “1”' : 'here, and no separator “1” stands before it';
  const sentence = `${at(text, place)} may not stand ${where}: letters and digits may, but not 1, b, i and o.`;
  return { place, sentence };
};

const tooLong = (text, most, what) => ({
  place: beyondBytes(text, most),
  sentence: `The text has ${measured(text)}; ${what} has at most ${grouped(most)}.`,
});

const CHECKSUM_NAMES = { 1: 'Bech32', 2: 'Bech32m', 3: 'Bech32', 4: 'Bech32m' };

// The most characters of a text by the number of a checksum.
const mostOf = (checksum) => (checksum > 2 ? C.BECH32_MAX_LONG_TEXT : C.BECH32_MAX_TEXT);

const noChecksum = (text, separator) => {
  const behind = text.length - separator - 1;
  const said = ['No character stands', 'One character stands'][behind] ?? `${behind} characters stand`;
  return { place: separator, sentence: `${said} behind the last “1”; the checksum alone has six.` };
};

const ofText = (calls, number, text, checksum) => {
  switch (number) {
    case NUMBERS.HRP_EMPTY: case NUMBERS.HRP_TOO_LONG: {
      const length = calls.fault(text);
      return ofHrp(number, text.slice(0, length));
    }
    case NUMBERS.HRP_NOT_ASCII: case NUMBERS.HRP_INVALID: return ofHrp(number, text, calls.fault(text));
    case NUMBERS.INVALID_CHARACTER: return invalidCharacter(text, calls.fault(text));
    case NUMBERS.MIXED_CASE: return cases(text, calls.fault(text));
    case NUMBERS.NO_SEPARATOR: return nowhere('There is no separator “1” in the text.');
    case NUMBERS.TEXT_TOO_LONG: return tooLong(text, mostOf(checksum), 'a text');
    case NUMBERS.NO_CHECKSUM: return noChecksum(text, text.lastIndexOf('1'));
    case NUMBERS.WRONG_CHECKSUM:
      return nowhere(checksum ? `The ${CHECKSUM_NAMES[checksum]} checksum is wrong.` : 'The checksum is wrong.');
    default: return null;
  }
};

// The bits behind the last whole byte of a text that has other spellings.
const ofSpelling = (calls, number, text) => {
  const { hrpLength, dataLength } = calls.lengths(text), place = hrpLength + dataLength, left = (5 * dataLength) % 8;
  const who = `${at(text, place)} the last one before the checksum,`;
  const why = number === NUMBERS.PADDING_TOO_LONG
    ? `is one too many: ${left} bits stand behind the last whole byte, and at most four may.`
    : 'has bits behind the last whole byte that are not zero.';
  return { place, sentence: `${who} ${why}` };
};

const ofStrict = (calls, number, text, checksum) =>
  ([NUMBERS.PADDING_TOO_LONG, NUMBERS.PADDING_NOT_ZERO].includes(number) ? ofSpelling(calls, number, text) : ofText(calls, number, text, checksum));

// ---- segwit addresses

// The bytes of the program of a text whose checksum is right, the bits behind them, and the place of its last character.
const programOf = (calls, text) => {
  const { hrpLength, dataLength } = calls.lengths(text);
  const bits = 5 * (dataLength - 1);
  return { bytes: Math.floor(bits / 8), left: bits % 8, last: hrpLength + dataLength };
};

const lengthOfProgram = (number, bytes) => {
  const has = `The program has ${counted(bytes, 'byte', 'bytes')}`;
  switch (number) {
    case NUMBERS.PROGRAM_TOO_SHORT: return nowhere(`${has}; it has at least 2.`);
    case NUMBERS.PROGRAM_TOO_LONG: return nowhere(`${has}; it has at most ${C.BECH32_MAX_SEGWIT_PROGRAM}.`);
    default: return nowhere(`${has}; in version 0 it has 20 or 32.`);
  }
};

const ofPadding = (number, text, { left, last: place }) => {
  const who = `${at(text, place)} the last one before the checksum,`;
  const sentence = number === NUMBERS.PADDING_TOO_LONG
    ? `${who} is one too many: ${left} bits stand behind the last whole byte of the program, and at most four may.`
    : `${who} has bits behind the last whole byte of the program that are not zero.`;
  return { place, sentence };
};

const ofAddress = (calls, number, text) => {
  const place = text.lastIndexOf('1') + 1, version = ALPHABET.indexOf(lower(text.charAt(place)));
  switch (number) {
    case NUMBERS.WRONG_CHECKSUM: {
      const name = CHECKSUM_NAMES[version === 0 ? 1 : 2];
      return nowhere(`The checksum is wrong: an address of version ${version} has a ${name} checksum.`);
    }
    case NUMBERS.ADDRESS_TOO_LONG: return tooLong(text, C.BECH32_MAX_SEGWIT_TEXT, 'an address');
    case NUMBERS.NO_DATA: {
      const sentence = 'No witness version stands between the last “1” and the checksum.';
      return { place: place - 1, sentence };
    }
    case NUMBERS.BAD_VERSION: {
      const sentence = `${at(text, place)} is the witness version ${version}; versions are from 0 to 16.`;
      return { place, sentence };
    }
    case NUMBERS.PADDING_TOO_LONG: case NUMBERS.PADDING_NOT_ZERO: return ofPadding(number, text, programOf(calls, text));
    case NUMBERS.PROGRAM_TOO_SHORT: case NUMBERS.PROGRAM_TOO_LONG: case NUMBERS.PROGRAM_NOT_V0:
      return lengthOfProgram(number, programOf(calls, text).bytes);
    default: return ofText(calls, number, text);
  }
};

// ---- descriptors

// The place is that of a character at fault.
const ofDescriptor = (number, text, at) => {
  if (number === NUMBERS.NOT_IN_DESCRIPTOR) {
    const { place, character } = placed(text)[at];
    const said = `Character ${grouped(at + 1)}, ${shown(character)}, may not stand in a descriptor, or not in its checksum.`;
    return { place, sentence: said };
  }
  return number === NUMBERS.WRONG_CHECKSUM ? nowhere('The checksum of the descriptor is wrong.') : null;
};

// ---- confidential addresses of Liquid

const LIQUID_CHECKSUM = 12;

const ofLiquid = (calls, number, text) => {
  const place = text.lastIndexOf('1') + 1, version = ALPHABET.indexOf(lower(text.charAt(place)));
  switch (number) {
    case NUMBERS.NO_CHECKSUM:
      return nowhere(`Behind the last “1” stand ${counted(text.length - place, 'character', 'characters')}; the checksum alone has twelve.`);
    case NUMBERS.WRONG_CHECKSUM: return nowhere('The Blech32 checksum is wrong.');
    case NUMBERS.NO_DATA: case NUMBERS.BAD_VERSION: return ofAddress(calls, number, text);
    case NUMBERS.PADDING_TOO_LONG: case NUMBERS.PADDING_NOT_ZERO:
      return { place: text.length - LIQUID_CHECKSUM - 1, sentence: SENTENCES[number] };
    case NUMBERS.UNSUPPORTED_VERSION: {
      const sentence = `${at(text, place)} is the witness version ${version}; of confidential addresses only version 0 is read.`;
      return { place, sentence };
    }
    default: return ofText(calls, number, text);
  }
};

// ---- codex32 strings

const notMs = (text) => {
  const hrp = text.slice(0, text.lastIndexOf('1'));
  const place = placed(hrp).find(({ character, place: i }) => lower(character) !== 'ms'[i])?.place ?? hrp.length;
  return { place, sentence: `The text begins with “${hrp}1”; a codex32 string begins with “ms1”.` };
};

const badLength = (text) => {
  const isLong = text.length >= 125 && text.length <= 127;
  const more = isLong ? ' The long codex32 strings, of 125 to 127 characters, are not read here.' : '';
  return {
    place: text.length > 93 ? 93 : null,
    sentence: `The text has ${measured(text)}; a codex32 string has from 48 to 93.${more}`,
  };
};

// The same of the calls that read strings of either length, or long ones alone: the first character too many is behind
// the most, but where a string may be one of the other length.
const badShareLength = (text, lengths = 'from 48 to 93, or from 125 to 127') => ({
  place: text.length > 127 ? 127 : null, sentence: `The text has ${measured(text)}; a codex32 string has ${lengths}.`,
});
const badLongLength = (text) => badShareLength(text, 'from 125 to 127 where it is a long one');

const ofCodex32 = (calls, number, text, ofLength = badLength) => {
  switch (number) {
    case NUMBERS.NOT_MS: return notMs(text);
    case NUMBERS.BAD_LENGTH: return ofLength(text);
    case NUMBERS.BAD_THRESHOLD:
      return { place: 3, sentence: `${at(text, 3)} is no threshold, which is 0 or a digit from 2 to 9.` };
    case NUMBERS.BAD_SHARE_INDEX:
      return { place: 8, sentence: `${at(text, 8)} is no share index of the threshold 0, which is s.` };
    default: return ofText(calls, number, text);
  }
};

// The parts of a string that is right, by their places. Of one that is a Uint8Array no string is made but of its header.
const PAYLOAD_AT = 9, LONG = 94;
const headOf = (text) => (typeof text === 'string' ? text : String.fromCharCode(...text.subarray(0, PAYLOAD_AT)));
const partsOf = (text) => {
  const { length } = text, head = headOf(text), { 3: threshold, 8: shareIndex } = head;
  return { threshold, identifier: asciiLower(head.slice(4, 8)), shareIndex: lower(shareIndex ?? ''), length };
};
const payloadOf = ({ length }) => length - PAYLOAD_AT - (length < LONG ? 13 : 15);

const leftOver = (text) => {
  const said = ['five', 'six', 'seven'][((5 * payloadOf(text)) % 8) - 5];
  return nowhere(`Behind the last whole byte of the payload stand ${said} bits, and at most four may.`);
};

// Of a text that is a Uint8Array no string is made, and no character is shown: the place alone is told.
const PLACES = { [NUMBERS.BAD_THRESHOLD]: 3, [NUMBERS.BAD_SHARE_INDEX]: 8 };
const AT_A_CHARACTER = [NUMBERS.HRP_NOT_ASCII, NUMBERS.HRP_INVALID, NUMBERS.INVALID_CHARACTER, NUMBERS.MIXED_CASE];
const ofBytes = (calls, number, text) => {
  const place = AT_A_CHARACTER.includes(number) ? calls.fault(text) : PLACES[number] ?? null;
  return { place, sentence: SENTENCES[number] };
};

const ofShare = (calls, number, text) => {
  if (number === NUMBERS.BITS_LEFT_OVER) return leftOver(text);
  if (typeof text !== 'string') return ofBytes(calls, number, text);
  return ofCodex32(calls, number, text, badShareLength);
};

const noShareIndex = (shareIndex) => {
  const { length } = Array.from(shareIndex);
  if (length !== 1) return nowhere(`The share index has ${counted(length, 'character', 'characters')}; it has one.`);
  return nowhere(`The share index is ${shown(shareIndex)}: it is a letter or a digit, but not 1, b, i and o.`);
};

// ---- sets of codex32 strings

// How one string of a set differs from the first, in words.
const differenceOf = (first, other) => {
  if (first.threshold !== other.threshold) return `its threshold is ${other.threshold}, and not ${first.threshold}`;
  if (first.identifier !== other.identifier) return `its identifier is “${other.identifier}”, and not “${first.identifier}”`;
  return `it has ${other.length} characters, and not ${first.length}`;
};

const isOther = (first, it) => ['threshold', 'identifier', 'length'].some((part) => first[part] !== it[part]);

const otherSet = (parts) => {
  const which = parts.findIndex((it) => isOther(parts[0], it));
  if (which < 0) return null;
  const sentence = `String ${which + 1} is of another set than string 1: ${differenceOf(parts[0], parts[which])}.`;
  return { ...nowhere(sentence), which };
};

const indexTwice = (parts) => {
  const firstOf = (shareIndex) => parts.findIndex((it) => it.shareIndex === shareIndex);
  const which = parts.findIndex(({ shareIndex }, i) => firstOf(shareIndex) < i);
  if (which < 0) return null;
  const { shareIndex } = parts[which];
  return { ...nowhere(`Strings ${firstOf(shareIndex) + 1} and ${which + 1} have one share index, “${shareIndex}”.`), which };
};

const tooFew = ([first], { length }) => {
  if (length === 0) return nowhere('There is no string.');
  const said = length === 1 ? 'is one string' : `are ${length} strings`;
  return nowhere(`There ${said}, and the threshold is ${first.threshold}.`);
};

// What is wrong with one of several texts by itself, or null.
const ofOne = (calls, number, texts) => {
  const which = texts.findIndex((it) => calls.share(it).number === number);
  if (which < 0) return null;
  const { place, sentence } = ofShare(calls, number, texts[which]);
  return { place, sentence: `String ${which + 1}: ${sentence}`, which };
};

const ofSet = (calls, number, texts, shareIndex) => {
  const parts = texts.map(partsOf);
  switch (number) {
    case NUMBERS.TOO_FEW_SHARES: return tooFew(parts, texts);
    case NUMBERS.OTHER_SET: return otherSet(parts);
    case NUMBERS.INDEX_TWICE: return indexTwice(parts);
    case NUMBERS.CONTRADICTION:
      return nowhere('The strings contradict each other: at least one of them is wrong, or is of another secret.');
    case NUMBERS.NO_SHARE_INDEX: return noShareIndex(shareIndex);
    default: return ofOne(calls, number, texts) ?? (number === NUMBERS.BAD_SHARE_INDEX ? noneBeside(shareIndex) : null);
  }
};

const noneBeside = (shareIndex) =>
  nowhere(`With the threshold 0 the one string is the secret: there is none at the share index ${shown(shareIndex)}.`);

/** A damaged text as the library reads it: each `?` behind the last `1` as `0`. */
export const asRead = (text) => {
  const separator = text.lastIndexOf('1') + 1;
  return separator === 0 ? text : text.slice(0, separator) + text.slice(separator).replaceAll('?', '0');
};

// ---- encoding

const GROUP = 5;
const encodedLength = (hrp, elements) => hrp.length + 1 + elements + CHECKSUM_LENGTH;
const elementsOf = (bytes) => Math.ceil((8 * bytes) / GROUP);

// The fault of a human-readable part, in a text that begins with it. There letters of both cases are told first.
const ofPart = (calls, number, hrp) => {
  const isAsked = [NUMBERS.HRP_NOT_ASCII, NUMBERS.HRP_INVALID, NUMBERS.HRP_MIXED_CASE].includes(number);
  const place = isAsked ? calls.fault(`${number === NUMBERS.HRP_MIXED_CASE ? hrp : asciiLower(hrp)}1qqqqqq`) : null;
  return ofHrp(number, hrp, place);
};

const ofElements = (calls, number, hrp, count, checksum) => {
  if (number !== NUMBERS.ENCODED_TOO_LONG) return ofPart(calls, number, hrp);
  const length = encodedLength(hrp, count);
  return nowhere(`The text would have ${grouped(length)} characters; a text has at most ${grouped(mostOf(checksum))}.`);
};

const ofEncoding = (calls, number, hrp, bytes, checksum) => ofElements(calls, number, hrp, elementsOf(bytes.length), checksum);

const ofElementsEncoding = (calls, number, hrp, elements, place, checksum) => {
  if (number !== NUMBERS.BAD_ELEMENT) return ofElements(calls, number, hrp, elements.length, checksum);
  return { place, sentence: `The element at the place ${place} is ${elements[place]}; elements are from 0 to 31.` };
};

const ofAddressEncoding = (calls, number, hrp, version, program) => {
  switch (number) {
    case NUMBERS.PROGRAM_TOO_SHORT: case NUMBERS.PROGRAM_TOO_LONG: case NUMBERS.PROGRAM_NOT_V0:
      return lengthOfProgram(number, program.length);
    case NUMBERS.ENCODED_BAD_VERSION: return nowhere(`The witness version is ${version}; versions are from 0 to 16.`);
    case NUMBERS.ENCODED_ADDRESS_TOO_LONG: {
      const length = encodedLength(hrp, 1 + elementsOf(program.length));
      return nowhere(`The address would have ${grouped(length)} characters; an address has at most ${C.BECH32_MAX_SEGWIT_TEXT}.`);
    }
    default: return ofPart(calls, number, hrp);
  }
};

const ofLiquidEncoding = (calls, number, hrp, version, program) => {
  if (number !== NUMBERS.UNSUPPORTED_VERSION) return ofAddressEncoding(calls, number, hrp, version, program);
  return nowhere(`The witness version is ${version}; of confidential addresses only version 0 is written.`);
};

const ofIdentifier = (identifier) => {
  const { length } = Array.from(identifier);
  if (length !== 4) return nowhere(`The identifier has ${counted(length, 'character', 'characters')}; it has four.`);
  const isStrange = (c) => !ALPHABET.includes(lower(c)), strange = Array.from(identifier).find(isStrange);
  const why = strange === undefined ? 'letters of both cases; all have one case'
    : `${shown(strange)}, which may not stand there: letters and digits may, but not 1, b, i and o`;
  return nowhere(`The identifier has ${why}.`);
};

const ofStringEncoding = (number, threshold, identifier, shareIndex, { length }) => {
  switch (number) {
    case NUMBERS.BAD_SIZE:
      return nowhere(`Of ${counted(length, 'byte', 'bytes')} there is no codex32 string; it has from 16 to 44, or 63 or 64.`);
    case NUMBERS.BAD_THRESHOLD: return nowhere(`The threshold is ${threshold}; it is 0, or from 2 to 9.`);
    case NUMBERS.BAD_SHARE_INDEX: return nowhere(`The share index is ${shown(shareIndex)}; with the threshold 0 it is “s”.`);
    case NUMBERS.BAD_IDENTIFIER: return ofIdentifier(identifier);
    case NUMBERS.NO_SHARE_INDEX: return noShareIndex(shareIndex);
    default: return null;
  }
};

// The fault of the characters of a payload. There a `1` is one like `b`, and no separator.
const faultOfPayload = (calls, payload) => {
  if (typeof payload === 'string') return calls.fault(payload.replaceAll('1', 'b'));
  const looked = payload.map((code) => (code === 0x31 ? 0x62 : code));
  try {
    return calls.fault(looked);
  } finally {
    looked.fill(0);
  }
};

const OF_A_PAYLOAD = {
  [NUMBERS.INVALID_CHARACTER]: 'A character of the payload may not stand there.',
  [NUMBERS.MIXED_CASE]: 'The payload has letters of both cases.',
};

const ofPayload = (calls, number, payload) => {
  const placeOfFault = () => faultOfPayload(calls, payload);
  if (typeof payload !== 'string' && number in OF_A_PAYLOAD) return { place: placeOfFault(), sentence: OF_A_PAYLOAD[number] };
  switch (number) {
    case NUMBERS.INVALID_CHARACTER: {
      const place = placeOfFault();
      return { place, sentence: `${at(payload, place)} may not stand in a payload: letters and digits may, but not 1, b, i and o.` };
    }
    case NUMBERS.MIXED_CASE: return cases(payload, placeOfFault());
    case NUMBERS.BAD_SIZE: {
      const length = typeof payload === 'string' ? Array.from(payload).length : payload.length;
      const has = counted(length, 'character', 'characters');
      return nowhere(`The payload has ${has}; it has as many as 16 to 44 bytes have, from 26 to 71, or as 63 or 64 have, 101 or 103.`);
    }
    default: return null;
  }
};

const MOST_SPLIT = 31;

const ofSplitting = (number, threshold, identifier, { secret, count, random }) => {
  switch (number) {
    case NUMBERS.BAD_COUNT: {
      const has = count === 1 ? 'There is one share' : `There are ${grouped(count)} shares`;
      return nowhere(`${has}; with the threshold ${threshold} there are from ${threshold} to ${MOST_SPLIT}.`);
    }
    case NUMBERS.BAD_RANDOM: {
      const has = random.length === 1 ? 'There is one random byte' : `There are ${grouped(random.length)} random bytes`;
      return nowhere(`${has}; one is taken for each character that is drawn, ${(threshold - 1) * elementsOf(secret.length)}.`);
    }
    case NUMBERS.BAD_SHARE_INDEX: return nowhere('The threshold is 0; a secret that is shared has one from 2 to 9.');
    default: return ofStringEncoding(number, threshold, identifier, null, secret);
  }
};

const ofPayloadEncoding = (calls, number, threshold, identifier, shareIndex, payload) =>
  ofPayload(calls, number, payload) ?? ofStringEncoding(number, threshold, identifier, shareIndex, payload);

// Of elements that are regrouped to bytes.
const ofWords = (number, words) => {
  const place = words.length - 1, bits = (5 * words.length) % 8;
  switch (number) {
    case NUMBERS.PADDING_TOO_LONG: return { place, sentence: `The last element is one too many: ${bits} bits follow the last whole byte, and at most four may.` };
    case NUMBERS.PADDING_NOT_ZERO: return { place, sentence: 'The last element has bits after the last whole byte that are not zero.' };
    default: return null;
  }
};

const reason = (number, found) => {
  const said = SENTENCES[number] ?? `The library refuses this with the number ${number}.`;
  return { number, code: CODES[number] ?? 'UNKNOWN', ...(found ?? nowhere(said)) };
};

/**
 * Why a call refused, by what it was given. Of the calls, `fault` returns the place of a text's fault, `lengths` the
 * lengths of the parts of a text whose checksum is right, and `share` the number of the refusal of a codex32 string.
 */
export const reasonsOf = (calls) => ({
  text: (number, text, checksum) => reason(number, ofText(calls, number, text, checksum)),
  address: (number, text) => reason(number, ofAddress(calls, number, text)),
  otherHrp: (hrp, wanted) => reason(NUMBERS.OTHER_HRP, nowhere(`The human-readable part is “${hrp}”, and “${wanted}” is wanted.`)),
  words: (number, words) => reason(number, ofWords(number, words)),
  liquid: (number, text) => reason(number, ofLiquid(calls, number, text)),
  liquidEncoding: (number, ...given) => reason(number, ofLiquidEncoding(calls, number, ...given)),
  descriptor: (number, text, at) => reason(number, ofDescriptor(number, text, at)),
  codex32: (number, text) => reason(number, ofCodex32(calls, number, text)),
  damaged: (number, text) => reason(number, ofCodex32(calls, number, asRead(text))),
  damagedLong: (number, text) => reason(number, ofCodex32(calls, number, asRead(text), badLongLength)),
  share: (number, text) => reason(number, ofShare(calls, number, text)),
  set: (number, texts, shareIndex) => reason(number, ofSet(calls, number, texts, shareIndex)),
  stringEncoding: (number, ...given) => reason(number, ofStringEncoding(number, ...given)),
  payloadEncoding: (number, ...given) => reason(number, ofPayloadEncoding(calls, number, ...given)),
  splitting: (number, ...given) => reason(number, ofSplitting(number, ...given)),
  encoding: (number, hrp, bytes, checksum) => reason(number, ofEncoding(calls, number, hrp, bytes, checksum)),
  elementsEncoding: (number, ...given) => reason(number, ofElementsEncoding(calls, number, ...given)),
  strict: (number, text, checksum) => reason(number, ofStrict(calls, number, text, checksum)),
  addressEncoding: (number, hrp, version, program) =>
    reason(number, ofAddressEncoding(calls, number, hrp, version, program)),
});
