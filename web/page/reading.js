// A damaged text as it is read: which of its characters cannot be read, and letters of one case.
import { ALPHABET, asciiLower } from '../src/reasons.js';
import { knownBeginning } from './beginnings.js';
import { partOf } from './parts.js';
import { SEEN } from './sentences.js';

const isData = (character) => character.length === 1 && ALPHABET.includes(asciiLower(character));

/** Whether the letters of a text are upper-case ones. Among these alone an `l` may be an I, an L or a 1. */
export const isUpperCase = (text) => /[A-Z]/.test(text) && !/[a-km-z]/.test(text);

/** A mended text in the case of the one that was put in. */
export const inCaseOf = (before, after) => (isUpperCase(before) ? after.toUpperCase() : asciiLower(after));

const isUnsure = (text) => {
  const isUpper = isUpperCase(text);
  return (character) => !isData(character) || (isUpper && character === 'l');
};

const hasBothCases = (characters) => characters.some((it) => /^[a-z]$/.test(it)) && characters.some((it) => /^[A-Z]$/.test(it));

/**
 * How a text is read: `filled` has `filler` for each character behind the separator that cannot be read (`?`), and for
 * each that is no data or looks like another (`strange`). Places are those of characters, and the same in both. `known` is
 * what the page knows of its `part`, or null.
 */
export const readingOf = (text, filler) => {
  const { part, separator: at, known } = partOf(text), begun = knownBeginning(text);
  const characters = Array.from(text), separator = begun ? begun.length - 1 : at, isOne = isUnsure(text);
  const isUnread = characters.map((character, place) => separator >= 0 && place > separator && isOne(character));
  const unread = [...isUnread.keys()].filter((place) => isUnread[place]);
  const isMixed = hasBothCases(characters.filter((_, place) => !isUnread[place]));
  const filled = characters.map((character, place) => (isUnread[place] ? filler : character)).join('');
  const strange = unread.filter((place) => characters[place] !== '?');
  return { text, characters, part, known, separator, isMixed, unread, strange, filled: isMixed ? asciiLower(filled) : filled };
};

/** How many characters stand behind the separator of a reading. */
export const sizeOf = ({ characters, separator }) => characters.length - separator - 1;

// ---- faults that are seen without a checksum

/** A sentence for each fault of a reading that is seen without a checksum, with `most` characters by name. */
export const faultsOf = ({ characters, isMixed, strange }, most) => {
  const all = strange.map((at) => ({ at, character: characters[at] }));
  const seen = all.length ? [SEEN.strange(all, most, all.every(({ character }) => isData(character)))] : [];
  return [...seen, ...(isMixed ? [SEEN.mixed] : [])];
};

/** How many characters were put in as ones that cannot be read. */
export const unreadSaid = ({ unread, strange }) => {
  const given = unread.length - strange.length;
  return given > 0 ? [SEEN.unread(given)] : [];
};

// ---- whether a text has the shape of Bech32 texts

const MOST_OF_OTHER_CASE = 2;

/**
 * Whether a text looks like one of Bech32: after its separator at most an eighth of the characters, or one, cannot stand there,
 * and all letters but two have one case. Another text is most likely none, although it begins like one.
 */
export const isShaped = (text) => {
  const it = readingOf(text, '?'), letters = (form) => text.match(form)?.length ?? 0;
  const isData = it.separator > 0 && it.strange.length <= Math.max(1, sizeOf(it) / 8);
  return isData && Math.min(letters(/[a-z]/g), letters(/[A-Z]/g)) <= MOST_OF_OTHER_CASE;
};
