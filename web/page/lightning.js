// Core Lightning's secrets: codex32 strings with the human-readable part `cl`. BIP-93 and the library know `ms` alone, so to read
// these is an extension of the page. A checksum is linear: with `ms` for `cl`, and with a constant added to its last characters, a
// secret becomes a string of the library with the same characters wrong. That is tested, and not proved.
import { ALPHABET, asciiLower } from '../src/reasons.js';
import { CODEX32, LIGHTNING } from './beginnings.js';
import { ofCodex32, partsOf } from './codex32.js';
import { slipSaid } from './kinds.js';
import { LENGTH, NONE, STRING, WARNINGS } from './sentences.js';

// The string of 32 bytes. Core Lightning makes no others.
const SIZE = 74, CHECKSUM = 13;

const valueOf = (character) => ALPHABET.indexOf(character);
const low = (character) => character.charCodeAt(0) & 31;

// What the two parts differ by: their characters have the same high bits.
const DIFFERENCE = [0, 1].map((at) => low(CODEX32[at]) ^ low(LIGHTNING[at]));

// A payload that makes a longer string, and where in it the characters stand that are as far from the end of that string as
// those of the part are from the end of a secret.
const PAYLOAD = 71, AT = PAYLOAD + 9 + CHECKSUM - SIZE - 8;

// The constant: what the checksums of two strings differ by that differ there.
const constantOf = (library) => {
  const sumOf = (payload) => Array.from(library.codex32.encodePayload(2, 'qqqq', 'q', payload).slice(-CHECKSUM), valueOf);
  const none = 'q'.repeat(PAYLOAD), characters = DIFFERENCE.map((value) => ALPHABET[value]).join('');
  const other = sumOf(none.slice(0, AT) + characters + none.slice(AT + characters.length));
  return sumOf(none).map((value, i) => value ^ other[i]);
};

// A text with another beginning, and with the constant added to its last characters. What is no character of the alphabet stays.
const moved = (text, beginning, constant) => {
  const place = text.length - CHECKSUM, isUpper = !/[a-z]/.test(text);
  const inCase = (it, isOwn) => (isOwn ? it.toUpperCase() : it);
  const added = (character, i) => {
    const value = valueOf(asciiLower(character));
    return value < 0 ? character : inCase(ALPHABET[value ^ constant[i]], isUpper || /[A-Z]/.test(character));
  };
  const start = Array.from(beginning, (character, i) => inCase(character, /[A-Z]/.test(text[i]))).join('');
  return start + text.slice(beginning.length, place) + Array.from(text.slice(place), added).join('');
};

/** The library as it reads a text: one of Core Lightning with its own part. */
export const readerOf = (library, text) => {
  if (!asciiLower(text).startsWith(LIGHTNING)) return library;
  const constant = constantOf(library), { codex32 } = library;
  const found = (it) => it && { ...it, text: moved(it.text, LIGHTNING, constant) };
  const share = (given) => codex32.share(moved(given, CODEX32, constant));
  return { ...library, codex32: { ...codex32, share, propose: (given) => found(codex32.propose(moved(given, CODEX32, constant))) } };
};

// One of another length: the front of a secret, or one with characters too many.
const ofLength = (text, size) => {
  const warnings = [WARNINGS.string], slip = slipSaid(size, [SIZE]), shown = { text, marked: [], warnings, isSecret: true };
  if (size < SIZE) return { tone: 'open', verdict: LENGTH.soFar(STRING.lightning, size, [SIZE]), said: slip, ...shown };
  return { tone: 'wrong', verdict: NONE.isWrong(STRING.name), said: [STRING.lightningSize(size, SIZE), ...slip], ...shown };
};

/** What is said of a text that begins with `cl1`, or null. */
export const ofLightning = (library, text) => {
  const size = Array.from(text).length;
  if (!asciiLower(text).startsWith(LIGHTNING)) return null;
  if (size !== SIZE || text.length !== SIZE) return ofLength(text, size);
  const it = readerOf(library, text), found = ofCodex32(it, text);
  if (!partsOf(it, text).parts) return { ...found, said: [...found.said, STRING.extension] };
  return { ...found, verdict: STRING.validLightning, said: [...found.said, STRING.extension] };
};
