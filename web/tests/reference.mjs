// Bech32, Bech32m and codex32 as the standards define their checksums, over numbers and one bit at a time. It shares
// nothing with the library or its glue, and is slow.
export const ALPHABET = 'qpzry9x8gf2tvdw0s3jn54khce6mua7l';

export const TARGETS = { bech32: 1, bech32m: 0x2bc830a3 };
const GENERATOR = [0x3b6a57b2, 0x26508e6d, 0x1ea119fa, 0x3d4233dd, 0x2a1462b3];

const step = (sum, value) => {
  const top = sum >>> 25;
  return GENERATOR.reduce((next, word, bit) => (top >> bit & 1 ? next ^ word : next), (sum & 0x1ffffff) << 5 ^ value);
};
const remainder = (values) => values.reduce(step, 1);

/** What a value at a location, of which 0 is the last character, adds to the remainder of a text. */
export const effectOf = (location, value) => {
  let sum = value;
  for (let i = 0; i < location; i++) sum = step(sum, 0);
  return sum;
};

const expanded = (hrp) => {
  const codes = Array.from(hrp.toLowerCase(), (c) => c.charCodeAt(0));
  return [...codes.map((c) => c >> 5), 0, ...codes.map((c) => c & 31)];
};

/** What the remainder of a text in lower case, which is in the grammar, differs by from that of a right one. */
export const residueOf = (checksum, text) => {
  const separator = text.lastIndexOf('1');
  const data = Array.from(text.slice(separator + 1), (c) => ALPHABET.indexOf(c));
  return remainder([...expanded(text.slice(0, separator)), ...data]) ^ TARGETS[checksum];
};

/** The text of a human-readable part and characters of data, in lower case, with its checksum. */
export const textOf = (checksum, hrp, data) => {
  const sum = residueOf(checksum, `${hrp}1${data}qqqqqq`);
  return `${hrp}1${data}${[25, 20, 15, 10, 5, 0].map((bits) => ALPHABET[sum >>> bits & 31]).join('')}`;
};

/** The characters of bytes, five bits each, with zero bits behind the last ones. */
export const dataOf = (bytes) => {
  const bits = Array.from(bytes, (byte) => byte.toString(2).padStart(8, '0')).join('');
  return (bits.match(/.{1,5}/g) ?? []).map((it) => ALPHABET[parseInt(it.padEnd(5, '0'), 2)]).join('');
};

/** Whether a checksum accepts such a text. */
export const accepts = (checksum, text) => residueOf(checksum, text) === 0;

// The checksums of codex32: the words of the generator, the bits below the highest element of a remainder, and the target.
const CODEX32 = {
  words: [0x19dc500ce73fde210n, 0x1bfae00def77fe529n, 0x1fbd920fffe7bee52n, 0x1739640bdeee3fdadn, 0x07729a039cfc75f5an],
  low: 60n, target: 0x10ce0795c2fd1e62an,
};
const LONG_CODEX32 = {
  words: [0x3d59d273535ea62d897n, 0x7a9becb6361c6c51507n, 0x543f9b7e6c38d8a2a0en, 0x0c577eaeccf1990d13cn, 0x1887f74f8dc71b10651n],
  low: 70n, target: 0x43381e570bf4798ab26n,
};

/** The remainder of values by a checksum, from a first one on. */
export const remainderBy = ({ words, low }, values, first) => values.reduce((sum, value) => {
  const top = sum >> low, rest = sum & ((1n << low) - 1n);
  return words.reduce((next, word, bit) => (top >> BigInt(bit) & 1n ? next ^ word : next), rest << 5n ^ BigInt(value));
}, first);

/** The characters of a remainder of this many elements. */
export const charactersOf = (sum, count) =>
  Array.from({ length: count }, (_, i) => ALPHABET[Number(sum >> BigInt(5 * (count - 1 - i)) & 31n)]).join('');

const valuesOf = (data) => Array.from(data, (c) => ALPHABET.indexOf(c));
const CODEX32_START = 0x23181b3n;
const acceptedBy = (checksum) => (text) => remainderBy(checksum, valuesOf(text.slice(3)), CODEX32_START) === checksum.target;

/**
 * The codex32 string of a header and a payload, in lower case, with its checksum of 13 characters; the human-readable part is
 * that of BIP-93 or another.
 */
export const stringOf = (data, hrp = 'ms') => {
  const start = remainderBy(CODEX32, expanded(hrp), 1n);
  const sum = remainderBy(CODEX32, [...valuesOf(data), ...Array(13).fill(0)], start) ^ CODEX32.target;
  return `${hrp}1${data}${charactersOf(sum, 13)}`;
};

/** Whether the codex32 checksum accepts a text in lower case that begins with `ms1`. */
export const acceptsCodex32 = acceptedBy(CODEX32);

/** The same of the checksum of long strings. */
export const acceptsLongCodex32 = acceptedBy(LONG_CODEX32);

/** A text in lower case with a value added at a location. */
export const added = (text, { location, value }) => {
  const place = text.length - 1 - location;
  return withOther(text, place, ALPHABET[ALPHABET.indexOf(text[place]) ^ value]);
};

const withOther = (text, place, character) => text.slice(0, place) + character + text.slice(place + 1);

/** The texts that differ from one in the character of one place behind the separator. */
export function* changedOnce(text) {
  for (let place = text.lastIndexOf('1') + 1; place < text.length; place++) {
    for (const character of ALPHABET) if (character !== text[place]) yield withOther(text, place, character);
  }
}

/**
 * What each edit makes of a text: two neighbours behind the separator swapped, a character there left out, or one put in.
 * Of each kind those with fewer characters behind it come first.
 */
export function* editsOf(text) {
  const { length } = text, first = text.lastIndexOf('1') + 1;
  for (let place = length - 2; place >= first; place--) {
    const characters = text.slice(place, place + 2);
    yield { kind: 'swapped', place, characters, text: text.slice(0, place) + characters[1] + characters[0] + text.slice(place + 2) };
  }
  for (let place = length - 1; place >= first; place--) {
    yield { kind: 'leftOut', place, characters: text[place], text: text.slice(0, place) + text.slice(place + 1) };
  }
  for (let place = length; place >= first; place--) {
    for (const it of ALPHABET) yield { kind: 'putIn', place, characters: it, text: text.slice(0, place) + it + text.slice(place) };
  }
}

/** Numbers below a bound, the same at each run from the same seed. */
export const numbersFrom = (seed) => {
  let state = seed >>> 0;
  return (bound) => {
    state = Math.imul(state ^ state >>> 15, 0x2c1b3c6d) + 0x9e3779b9 >>> 0;
    const mixed = Math.imul(state ^ state >>> 12, 0x297a2d39) >>> 0;
    return ((mixed ^ mixed >>> 15) >>> 0) % bound;
  };
};

/** A text with other characters at some places behind its separator. */
export const changedAt = (text, count, below) => {
  const separator = text.lastIndexOf('1'), places = new Set();
  while (places.size < count) places.add(separator + 1 + below(text.length - separator - 1));
  return Array.from(text, (c, place) => (places.has(place) ? ALPHABET[(ALPHABET.indexOf(c) + 1 + below(31)) % 32] : c)).join('');
};
