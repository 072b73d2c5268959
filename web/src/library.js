// What users call: the functions of the library with the values of JavaScript, and refusals as errors.
import { ALL_CHECKSUMS, bech32Calls, codex32Calls, CHECKSUMS, MOST_SHARES } from './calls.js';
import { C } from './declared.js';
import { descriptorCalls } from './descriptors.js';
import { asRead, asciiLower, reasonsOf } from './reasons.js';

export { Stopped } from './instance.js';

/** A text, or parts of one, that the library refuses. */
export class Refused extends Error {
  constructor({ number, code, sentence, place, which = null }) {
    super(sentence);
    this.name = 'Refused';
    /** The refusal, such as `WRONG_CHECKSUM`. */
    this.code = code;
    /** Its number in `include/bech32.h` and `include/codex32.h`. */
    this.number = number;
    /** Where the character at fault stands in the text or the human-readable part, from 0 on; null where it is no one. */
    this.place = place;
    /** Which of several codex32 strings is at fault, from 0 on; null where it is no one, or where there is one alone. */
    this.which = which;
  }
}

const {
  BECH32_NOT_UTF8: NOT_UTF8, BECH32_NO_CORRECTION: NO_CORRECTION, BECH32_NO_MEMORY: NO_MEMORY, BECH32_NO_ROOM: NO_ROOM,
} = C;

const text = (it, what = 'the text') => {
  if (typeof it !== 'string') throw new TypeError(`${what} is no string`);
  return it;
};
const bytes = (it, what) => {
  if (!(it instanceof Uint8Array)) throw new TypeError(`${what} are no Uint8Array`);
  return it;
};
// A text that is a secret: a string, or a Uint8Array, which can be wiped.
const secretText = (it, what = 'the text') => {
  if (typeof it !== 'string' && !(it instanceof Uint8Array)) throw new TypeError(`${what} is no string and no Uint8Array`);
  return it;
};
// Whether texts are wanted as Uint8Arrays.
const asBytes = ({ into = String } = {}) => {
  if (into !== String && into !== Uint8Array) throw new TypeError('into is neither String nor Uint8Array');
  return into === Uint8Array;
};
const numberOf = (checksum) => {
  if (!Object.hasOwn(CHECKSUMS, checksum)) throw new TypeError("the checksum is neither 'bech32' nor 'bech32m'");
  return CHECKSUMS[checksum];
};
// The number of one that may be for long texts.
const anyNumberOf = (checksum) => {
  if (!Object.hasOwn(ALL_CHECKSUMS, checksum)) throw new TypeError('the checksum is none of those that are known');
  return ALL_CHECKSUMS[checksum];
};
const accepted = (answer, why) => {
  // A string is always UTF-8.
  if (answer.number === NOT_UTF8) throw new TypeError('a text is not UTF-8');
  if (answer.number) throw new Refused(why(answer.number));
  return answer;
};

// What a call finds for a text, in the case of that text: in upper case where it has upper-case letters and no others.
const inCaseOf = (given, found) => (/[A-Z]/.test(given) && !/[a-z]/.test(given) ? found.toUpperCase() : found);

// The places of a text at which another has other characters, and those that were given, in rising order.
const changesOf = (before, after, given) =>
  Array.from(before, (from, place) => ({ place, from, to: after[place] }))
    .filter(({ place, from, to }) => given.has(place) || asciiLower(from) !== asciiLower(to));

// A correction as users get it, with its changes and those places that were given.
const correctionOf = (given, found, known) => {
  const after = inCaseOf(given, found);
  return { text: after, changes: changesOf(given, after, new Set(known)) };
};

// An edit of a text by its place: that of the first of two that are swapped, of a character that is left out, or of one that
// is put in, in the text that it makes.
const editOf = (before, after, { kind, location }) => {
  const it = kind === 'putIn' ? after : before, size = kind === 'swapped' ? 2 : 1;
  const place = it.length - size - location;
  return { kind, place, characters: it.slice(place, place + size) };
};

const listable = (answer, why) => {
  if ([NO_MEMORY, NO_ROOM].includes(answer.number)) throw new RangeError('there are more near texts than can be listed');
  return accepted(answer, why);
};

const placesOf = (given, length) => {
  const places = [...given];
  if (!places.every((place) => Number.isInteger(place) && place >= 0 && place < length)) {
    throw new RangeError('a place is no place of the text');
  }
  return places;
};

const textCalls = (calls, reasons) => ({
  encode(checksum, hrp, data) {
    const number = anyNumberOf(checksum);
    text(hrp, 'the human-readable part');
    bytes(data, 'the data');
    return accepted(calls.encode(number, hrp, data), (n) => reasons.encoding(n, hrp, data, number)).text;
  },
  encodeElements(checksum, hrp, elements) {
    const number = anyNumberOf(checksum);
    text(hrp, 'the human-readable part');
    const answer = calls.encodeElements(number, hrp, bytes(elements, 'the elements'));
    return accepted(answer, (n) => reasons.elementsEncoding(n, hrp, elements, answer.place, number)).text;
  },
  decodeStrict(checksum, given) {
    const number = anyNumberOf(checksum), answer = calls.decodeStrict(number, text(given));
    const { hrp, bytes: data } = accepted(answer, (n) => reasons.strict(n, given, number));
    return { hrp, bytes: data };
  },
  decodeElements(checksum, given) {
    const number = anyNumberOf(checksum), answer = calls.decodeElements(number, text(given));
    const { hrp, elements } = accepted(answer, (n) => reasons.text(n, given, number));
    return { hrp, elements };
  },
  decode(given) {
    const { hrp, bytes: data } = accepted(calls.decode(text(given)), (n) => reasons.text(n, given));
    const checksum = calls.check(CHECKSUMS.bech32m, given).number === 0 ? 'bech32m' : 'bech32';
    return { checksum, hrp, bytes: data };
  },
  check(checksum, given) {
    const number = anyNumberOf(checksum);
    const { hrpLength, dataLength } = accepted(calls.check(number, text(given)), (n) => reasons.text(n, given, number));
    return { hrp: given.slice(0, hrpLength), data: given.slice(hrpLength + 1, hrpLength + 1 + dataLength) };
  },
});

// Bytes and elements of five bits are regrouped in pieces that a text has room for: 5 bytes are 8 elements.
const PIECE_OF_BYTES = 4400, PIECE_OF_WORDS = (8 * PIECE_OF_BYTES) / 5, ANY_HRP = 'a';

const wordsGiven = (given) => {
  if (given instanceof Uint8Array) return given;
  const words = typeof given === 'object' && given?.[Symbol.iterator] ? [...given] : null;
  if (!words?.every((it) => Number.isInteger(it) && it >= 0 && it < 256)) throw new TypeError('the elements are no Uint8Array and no list of small numbers');
  return Uint8Array.from(words);
};

const piecesOf = (all, size) => Array.from({ length: Math.ceil(all.length / size) }, (_, i) => all.subarray(i * size, (i + 1) * size));

const joined = (pieces, size) => {
  const all = new Uint8Array(pieces.reduce((sum, it) => sum + it.length, 0));
  pieces.forEach((piece, i) => all.set(piece, i * size));
  return all;
};

const wordCalls = (calls, reasons) => ({
  toWords(data) {
    const long = ALL_CHECKSUMS.longBech32;
    const wordsOf = (piece) => calls.decodeElements(long, calls.encode(long, ANY_HRP, piece).text).elements;
    return joined(piecesOf(bytes(data, 'the data'), PIECE_OF_BYTES).map(wordsOf), PIECE_OF_WORDS);
  },
  fromWords(given) {
    const long = ALL_CHECKSUMS.longBech32, words = wordsGiven(given);
    const bytesOf = (piece, i) => {
      const answer = calls.encodeElements(long, ANY_HRP, piece);
      const { text: held } = accepted(answer, (n) => reasons.elementsEncoding(n, ANY_HRP, words, i * PIECE_OF_WORDS + answer.place, long));
      return accepted(calls.decodeStrict(long, held), (n) => reasons.words(n, words)).bytes;
    };
    return joined(piecesOf(words, PIECE_OF_WORDS).map(bytesOf), PIECE_OF_BYTES);
  },
});

// An address that may have been meant, with the one edit or the characters that make it of what was typed.
const suggestionOf = (given, { text: found, kind, place }) => {
  const after = inCaseOf(given, found);
  if (kind === null) return { text: after, changes: changesOf(given, after, new Set()), edit: null };
  const it = kind === 'putIn' ? after : given, characters = it.slice(place, place + (kind === 'swapped' ? 2 : 1));
  return { text: after, changes: [], edit: { kind, place, characters } };
};

// Tests a human-readable part: one that is none is refused.
const partTest = (calls, reasons) => (hrp) => {
  const none = new Uint8Array();
  accepted(calls.encode(CHECKSUMS.bech32, text(hrp, 'the human-readable part'), none), (n) => reasons.encoding(n, hrp, none));
};

const segwitCalls = (calls, reasons) => ({
  suggest(given, hrp) {
    text(given);
    // The human-readable part is told first.
    partTest(calls, reasons)(hrp);
    const { found } = accepted(calls.suggest(given, hrp), (n) => reasons.text(n, asRead(given)));
    return found.map((it) => suggestionOf(given, it));
  },
  encode(hrp, version, program) {
    text(hrp, 'the human-readable part');
    bytes(program, 'the bytes of the program');
    if (!Number.isInteger(version) || version < 0 || version > 31) {
      throw new RangeError('the version is no integer from 0 to 31');
    }
    const answer = calls.segwitEncode(hrp, version, program);
    return accepted(answer, (n) => reasons.addressEncoding(n, hrp, version, program)).text;
  },
  decode(given, wanted = null) {
    text(given);
    if (wanted !== null) partTest(calls, reasons)(wanted);
    const { hrp, version, program } = accepted(calls.segwitDecode(given), (n) => reasons.address(n, given));
    if (wanted !== null && asciiLower(hrp) !== asciiLower(wanted)) throw new Refused(reasons.otherHrp(hrp, wanted));
    return { hrp, version, program };
  },
});

// A mistyped text as the library reads it, with what is known to be wrong: the places given, and those of each `?` that is
// `unread` behind its `front`.
const typedOf = (given, places) => {
  const known = placesOf(places, text(given).length), read = asRead(given), front = given.lastIndexOf('1') + 1;
  const unread = read === given ? [] : Array.from(given.matchAll(/\?/g), ({ index }) => index).filter((place) => place >= front);
  const each = [...new Set([...known, ...unread])];
  return { read, front, unread, known: each, erasures: each.map((place) => given.length - 1 - place) };
};

// The most characters that may be known to be wrong.
const MOST_KNOWN = 3;

// What `correct` makes of a text that is accepted as it is read: a `?` that is read right is one of three at most.
const correctedAsRead = (given, found, { front, unread, known }) => {
  if (unread.length === 0) return correctionOf(given, found, []);
  return known.length <= MOST_KNOWN && known.every((place) => place >= front) ? correctionOf(given, found, known) : null;
};

// A confidential address is mended if twice the number of wrong characters, plus those known to be wrong, is at most this.
const LIQUID_BOUND = 6, LIQUID_KEY = 33;

// What twice the errors, with the number of characters that are known to be wrong, may be at most.
const LIQUID_MOST = 7;

// How many errors one correction has beside so many that are known to be wrong.
const errorsBeside = (known) => Math.floor(Math.max(LIQUID_BOUND - known, 0) / 2);

const versionOf = (version) => {
  if (!Number.isInteger(version) || version < 0 || version > 31) throw new RangeError('the version is no integer from 0 to 31');
  return version;
};

const liquidCalls = (calls, reasons) => ({
  encode(hrp, version, key, program) {
    text(hrp, 'the human-readable part');
    if (bytes(key, 'the bytes of the key').length !== LIQUID_KEY) throw new RangeError(`the key has not ${LIQUID_KEY} bytes`);
    const answer = calls.liquidEncode(hrp, versionOf(version), key, bytes(program, 'the bytes of the program'));
    return accepted(answer, (n) => reasons.liquidEncoding(n, hrp, version, program)).text;
  },
  decode(given) {
    const { hrp, version, key, program } = accepted(calls.liquidDecode(text(given)), (n) => reasons.liquid(n, given));
    return { hrp, version, key, program };
  },
  correct(given, places = []) {
    const { read, erasures, known } = typedOf(given, places);
    const answer = calls.liquidNearest(read, erasures, errorsBeside(known.length));
    listable(answer, (n) => reasons.liquid(n, read));
    // Beyond the bound none is the correction, but the faults of the text are told first.
    const [found] = known.length > LIQUID_BOUND ? [] : answer.texts;
    return found === undefined ? null : correctionOf(given, found, known);
  },
  nearest(given, places = [], errors = undefined) {
    const { read, erasures, known } = typedOf(given, places), wrong = errors ?? errorsBeside(known.length);
    if (![0, 1, 2, 3].includes(wrong)) throw new RangeError('the number of errors is none of 0, 1, 2 and 3');
    if (known.length <= LIQUID_BOUND && 2 * wrong + known.length > LIQUID_MOST) {
      throw new RangeError(`beside ${known.length} that are known to be wrong there are at most ${LIQUID_MOST - known.length >> 1} errors`);
    }
    const answer = calls.liquidNearest(read, erasures, wrong);
    listable(answer, (n) => reasons.liquid(n, read));
    return answer.texts.map((it) => correctionOf(given, it, known));
  },
});

// The calls that mend a text; `places` are those of characters known to be wrong, beside each `?`.
const mendingCalls = (calls, reasons) => ({
  correct(checksum, given, places = []) {
    const number = numberOf(checksum), typed = typedOf(given, places);
    const answer = calls.correct(number, typed.read, typed.erasures);
    if (answer.number === NO_CORRECTION) return null;
    accepted(answer, (n) => reasons.text(n, typed.read, number));
    return answer.errors.length ? correctionOf(given, answer.text, typed.known) : correctedAsRead(given, answer.text, typed);
  },
  nearest(checksum, given, places = [], errors = 2) {
    const number = numberOf(checksum), { read, erasures, known } = typedOf(given, places);
    if (![0, 1, 2].includes(errors)) throw new RangeError('the number of errors is none of 0, 1 and 2');
    const answer = calls.nearest(number, read, erasures, errors);
    listable(answer, (n) => reasons.text(n, read, number));
    return answer.texts.map((it) => correctionOf(given, it, known));
  },
  nearEdits(checksum, given) {
    const number = numberOf(checksum), answer = calls.nearEdits(number, text(given));
    listable(answer, (n) => reasons.text(n, given, number));
    return answer.edits.map(({ text: found, ...edit }) => {
      const after = inCaseOf(given, found);
      return { text: after, edit: editOf(given, after, edit) };
    });
  },
});

// A text with a right checksum that is made of a mistyped one: what is done, at which places, with the characters there.
const mendedOf = (given, { kind, places, text: after }) => {
  const before = Array.from(given), at = (it) => places.map((place) => it[place]).join('');
  return { text: after, kind, places, from: kind === 'putIn' ? '' : at(before), to: kind === 'leftOut' ? '' : at(after) };
};

const descriptorFunctions = (calls, reasons) => ({
  checksum(given) {
    const answer = calls.checksum(text(given));
    return accepted(answer, (n) => reasons.descriptor(n, given, answer.place)).checksum;
  },
  check(given) {
    const answer = calls.check(text(given));
    accepted(answer, (n) => reasons.descriptor(n, given, answer.place));
    return given.slice(0, given.lastIndexOf('#'));
  },
  mend(given, changed = 1) {
    text(given);
    if (![0, 1].includes(changed)) throw new RangeError('the number of changed characters is neither 0 nor 1');
    const answer = listable(calls.mend(given, changed), (n) => reasons.descriptor(n, given, null));
    return answer.found.map((it) => mendedOf(given, it));
  },
  mendTwo(given) {
    const answer = listable(calls.mendTwo(text(given)), (n) => reasons.descriptor(n, given, null));
    return answer.found.map((it) => mendedOf(given, it));
  },
});

// The strings of a set, and the code of a share index: 0 where it is no one character.
const textsOf = (given) => {
  if (typeof given === 'string' || given instanceof Uint8Array) {
    throw new TypeError('the strings are one string, and no list of them');
  }
  const texts = [...given].map((it) => secretText(it, 'one of the strings'));
  if (texts.length > MOST_SHARES) throw new RangeError(`there are more than ${MOST_SHARES} strings`);
  return texts;
};
const codeOf = (shareIndex) => (text(shareIndex, 'the share index').length === 1 ? shareIndex.charCodeAt(0) : 0);

const setCalls = (calls, reasons) => ({
  derive(given, shareIndex, options) {
    const texts = textsOf(given), answer = calls.derive(codeOf(shareIndex), texts, asBytes(options));
    return accepted(answer, (n) => reasons.set(n, texts, shareIndex)).text;
  },
  recover(given) {
    const texts = textsOf(given);
    return accepted(calls.recover(texts), (n) => reasons.set(n, texts, null)).bytes;
  },
});

// What stands before the payload of a string, as the library takes it.
const thresholdOf = (threshold) => {
  if (!Number.isInteger(threshold) || threshold < 0 || threshold > 31) {
    throw new RangeError('the threshold is no integer from 0 to 31');
  }
  return threshold;
};
const headerOf = (threshold, identifier, shareIndex) =>
  [thresholdOf(threshold), text(identifier, 'the identifier'), codeOf(shareIndex)];

const makingCalls = (calls, reasons) => ({
  encode(threshold, identifier, shareIndex, data, options) {
    const given = headerOf(threshold, identifier, shareIndex);
    const answer = calls.encode(...given, bytes(data, 'the data'), asBytes(options));
    return accepted(answer, (n) => reasons.stringEncoding(n, threshold, identifier, shareIndex, data)).text;
  },
  encodePayload(threshold, identifier, shareIndex, payload, options) {
    const given = headerOf(threshold, identifier, shareIndex);
    const answer = calls.encodePayload(...given, secretText(payload, 'the payload'), asBytes(options));
    return accepted(answer, (n) => reasons.payloadEncoding(n, threshold, identifier, shareIndex, payload)).text;
  },
});

// Random bytes of the operating system. A failure is thrown.
const draw = (array) => crypto.getRandomValues(array);

const splittingCalls = (calls, reasons) => ({
  split(secret, threshold, count, identifier = null, options = {}) {
    thresholdOf(threshold);
    if (!Number.isSafeInteger(count) || count < 0) throw new RangeError('the number of shares is no integer from 0 on');
    if (identifier !== null) text(identifier, 'the identifier');
    const random = options.random === undefined ? null : bytes(options.random, 'the random bytes');
    const how = { random, draw, asBytes: asBytes(options) };
    const answer = calls.split(threshold, identifier, bytes(secret, 'the bytes of the secret'), count, how);
    return accepted(answer, (n) => reasons.splitting(n, threshold, identifier, { secret, count, random })).texts;
  },
});

const codex32Functions = (calls, reasons) => ({
  parse(given) {
    const answer = accepted(calls.parse(text(given)), (n) => reasons.codex32(n, given));
    const { threshold, identifier, shareIndex, payload } = answer;
    return { threshold, identifier, shareIndex, payload };
  },
  propose(given) {
    const answer = calls.propose(text(given));
    if (answer.number === NO_CORRECTION) return null;
    accepted(answer, (n) => reasons.damaged(n, given));
    return correctionOf(given, answer.text, []);
  },
  proposeLong(given) {
    const answer = calls.proposeLong(text(given));
    if (answer.number === NO_CORRECTION) return null;
    accepted(answer, (n) => reasons.damagedLong(n, given));
    return correctionOf(given, answer.text, []);
  },
  share(given) {
    const answer = accepted(calls.share(secretText(given)), (n) => reasons.share(n, given));
    const { threshold, identifier, shareIndex, bytes: data } = answer;
    return { threshold, identifier, shareIndex, bytes: data };
  },
  ...makingCalls(calls, reasons),
  ...setCalls(calls, reasons),
  ...splittingCalls(calls, reasons),
});

// What reasons ask. A text that is accepted is so by one checksum.
const asked = (calls) => ({
  fault: calls.fault,
  lengths: (text) => Object.values(ALL_CHECKSUMS).map((it) => calls.check(it, text)).find(({ number }) => number === 0),
});

// The same of codex32 strings, which are secrets: nothing of them stays in the memory of the modules.
const askedSecretly = (calls, { share }) => ({
  share,
  fault(text) {
    try {
      return calls.fault(text);
    } finally {
      calls.wipe();
    }
  },
});

/**
 * The library over the module `bech32_c`, a `WebAssembly.Module`; `strings` adds what the module `codex32_c` has, whose reasons
 * ask this one too.
 */
export const bech32Library = (bech32Module) => {
  const calls = bech32Calls(bech32Module), reasons = reasonsOf(asked(calls));
  return {
    ...textCalls(calls, reasons),
    ...wordCalls(calls, reasons),
    testPart: partTest(calls, reasons),
    segwit: segwitCalls(calls, reasons),
    ...mendingCalls(calls, reasons),
    descriptor: descriptorFunctions(descriptorCalls(bech32Module), reasons),
    liquid: liquidCalls(calls, reasons),
    wipe: calls.wipe,
    strings(codex32Module) {
      const codex32 = codex32Calls(codex32Module);
      return codex32Functions(codex32, reasonsOf(askedSecretly(calls, codex32)));
    },
  };
};

/** The library over its two modules. */
export const library = (bech32Module, codex32Module) => {
  const { strings, ...it } = bech32Library(bech32Module);
  return { ...it, codex32: strings(codex32Module) };
};
