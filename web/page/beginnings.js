// The beginnings of Bitcoin addresses and codex32 strings, and the texts that begin nearly as one of them.
import { asciiLower } from '../src/reasons.js';
import { partOf } from './parts.js';

/** The human-readable parts of Bitcoin addresses. */
export const ADDRESS_PARTS = ['bc', 'tb', 'bcrt'];

/** What codex32 strings begin with, in lower case. */
export const CODEX32 = 'ms1';

/** What Core Lightning's secrets begin with, which are codex32 strings with a part of their own. */
export const LIGHTNING = 'cl1';

const KNOWN = [...ADDRESS_PARTS.map((part) => `${part}1`), CODEX32], ALL = [...KNOWN, LIGHTNING];

/** The known beginning that a text has, in lower case, or null: a `1` behind it is no separator, but a mistyped character. */
export const knownBeginning = (text) => ALL.find((it) => asciiLower(text.slice(0, it.length)) === it) ?? null;

/** Whether a text begins as addresses of Bitcoin do. */
export const isAddressLike = (text) => ![null, CODEX32, LIGHTNING].includes(knownBeginning(text));

/** Whether a text is the front of a known beginning, or the whole of it. */
export const isBegun = (text) => ALL.some((it) => it.startsWith(asciiLower(text)));

/**
 * A text of which the separator of a known beginning stands behind the character that follows it: in lower case with these
 * two swapped, and the place of the first. Null of another text.
 */
export const withSeparatorSwapped = (text) => {
  const lower = asciiLower(text);
  const known = KNOWN.find((it) => lower.startsWith(it.slice(0, -1)) && lower[it.length] === '1' && !lower.startsWith(it));
  if (!known) return null;
  const place = known.length - 1;
  return { place, text: known + lower[place] + lower.slice(known.length + 1) };
};

// How few characters are to be changed, left out, put in or swapped to make one short text of another.
const slips = (from, to) => {
  if (from === '' || to === '') return from.length + to.length;
  if (from[0] === to[0]) return slips(from.slice(1), to.slice(1));
  const isSwapped = from[0] === to[1] && from[1] === to[0];
  return 1 + Math.min(
    slips(from.slice(1), to.slice(1)), slips(from.slice(1), to), slips(from, to.slice(1)),
    isSwapped ? slips(from.slice(2), to.slice(2)) : Infinity,
  );
};

const MOST_SLIPS = 2;

// A beginning that is missing as a whole is one slip.
const slipsOf = (from, to) => (from === '' ? 1 : slips(asciiLower(from), to));

/**
 * The texts with a known beginning in place of one that is near to it, in lower case: each with the beginnings `from`
 * and `to`, and the number of `slips` between them. There is none where the text has a known beginning or a known part.
 */
export const nearBeginnings = (text) => {
  if (knownBeginning(text) || partOf(text).known) return [];
  const found = KNOWN.flatMap((to) =>
    Array.from({ length: Math.min(text.length, to.length + MOST_SLIPS) + 1 }, (_, size) => {
      const from = text.slice(0, size);
      return { from, to, slips: slipsOf(from, to), text: to + asciiLower(text.slice(size)) };
    }));
  return found.filter((it) => it.slips <= MOST_SLIPS && /^[!-~]*$/.test(it.from)).sort((a, b) => a.slips - b.slips);
};
