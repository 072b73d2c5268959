// Reads the fields of a split, and makes the shares. Like answer.js, it knows no browser.
import { ALPHABET, asciiLower } from '../src/reasons.js';
import { CODEX32 } from './beginnings.js';
import { SECRET_INDEX, partsOf } from './codex32.js';
import { seedWords } from './others.js';
import { failed } from './saying.js';
import { SPLIT } from './sentences.js';

/** The kinds of secret that are drawn: their bytes in words. */
export const NEW = ['16', '32'];

/** The kind of a secret that is typed. */
export const OWN = 'own';

const SIZES = NEW.map(Number), DIGITS_OF_BYTE = 2;
const IDENTIFIER = 4;

const isSpace = (character) => /^\s$/.test(character);
const isDigit = (character) => /^[0-9a-f]$/i.test(character);

// What is wrong with a secret that has a character which is no digit.
const strangeSaid = (typed, at, character) => {
  if (asciiLower(typed.trim()).startsWith(CODEX32)) return failed(SPLIT.string);
  return seedWords(typed) ?? failed(SPLIT.strange(at, character));
};

/** The bytes of a secret that was typed in hexadecimal digits, or what is wrong with it: one of the two is null. */
export const secretTyped = (typed) => {
  const characters = Array.from(typed), digits = characters.filter((it) => !isSpace(it)).join('');
  const at = characters.findIndex((it) => !isSpace(it) && !isDigit(it)), wrong = (said) => ({ bytes: null, wrong: said });
  if (at >= 0) return wrong(strangeSaid(typed, at, characters[at]));
  if (digits === '') return wrong(failed(SPLIT.empty));
  if (!SIZES.includes(digits.length / DIGITS_OF_BYTE)) return wrong(failed(SPLIT.size(digits.length)));
  return { bytes: Uint8Array.from(digits.match(/../g), (pair) => parseInt(pair, 16)), wrong: null };
};

/** What is wrong with an identifier that was typed, or null. Nothing is wrong with none. */
export const identifierWrong = (typed) => {
  const characters = Array.from(asciiLower(typed.trim())), at = characters.findIndex((it) => !ALPHABET.includes(it));
  if (at >= 0) return failed(SPLIT.identifierStrange(at, characters[at]));
  return [0, IDENTIFIER].includes(characters.length) ? null : failed(SPLIT.identifierSize(characters.length));
};

// As many random bytes, or that there are none.
const drawn = (random, size) => {
  try {
    return { bytes: random(new Uint8Array(size)), wrong: null };
  } catch (error) {
    return { bytes: null, wrong: failed(SPLIT.noRandom(error)) };
  }
};

// Each byte gives the character of its lowest five bits.
const characterOf = (byte) => ALPHABET[byte % ALPHABET.length];

// The identifier that was typed, or one that is drawn. It is drawn in any case, to see that there are random bytes at all:
// the library draws those of the shares.
const identifierOf = (random, typed) => {
  const { bytes, wrong } = drawn(random, IDENTIFIER), text = asciiLower(typed.trim());
  const identifier = text === '' ? Array.from(bytes ?? [], characterOf).join('') : text;
  return { identifier, wrong: identifierWrong(typed) ?? wrong };
};

const fewSaid = (count, threshold) => (count < threshold ? failed(SPLIT.few(count, threshold)) : null);

const isSame = (some, others) => some.length === others.length && some.every((byte, i) => byte === others[i]);

// Whether all shares together give the secret back.
const giveBack = (library, shares, secret) => {
  const back = library.codex32.recover(shares), areRight = isSame(back, secret);
  back.fill(0);
  return areRight;
};

// The shares of a secret, each with its parts, or null where they are not what they should be.
const triedShares = (library, secret, threshold, count, identifier) => {
  const texts = library.codex32.split(secret, threshold, count, identifier);
  const shares = texts.map((text) => ({ text, parts: partsOf(library, text).parts }));
  const areNamed = shares.every(({ parts }) => parts?.threshold === threshold && parts.identifier === identifier);
  const areShares = areNamed && shares.every(({ parts }) => parts.shareIndex !== SECRET_INDEX);
  return areShares && shares.length === count && giveBack(library, texts, secret) ? shares : null;
};

/**
 * The `shares` that are made as the fields say, each a text with its parts, or what is `wrong`: one of the two is null.
 * `random` fills bytes, and throws where it cannot. No array keeps bytes of the secret.
 */
export const split = (library, random, { kind, secret, threshold, count, identifier: typed }) => {
  const { bytes, wrong } = kind === OWN ? secretTyped(secret) : drawn(random, Number(kind));
  try {
    const { identifier, wrong: misnamed } = identifierOf(random, typed);
    const first = wrong ?? fewSaid(count, threshold) ?? misnamed;
    if (first) return { shares: null, wrong: first };
    const shares = triedShares(library, bytes, threshold, count, identifier);
    return { shares, wrong: shares ? null : failed(SPLIT.differ) };
  } finally {
    bytes?.fill(0);
  }
};
