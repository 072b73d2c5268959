// How likely a correction is to be false: of a text that is wrong in another way than is looked for, how many texts are near
// that a checksum accepts by chance alone.

// A checksum of six characters accepts one in this many texts.
const ONE_IN = 2 ** 30;

// A character of the alphabet may be any of this many others.
const OTHERS = 31;

/**
 * Nothing is offered beyond this many expected false answers: one to a hundred texts. Two wrong characters of an address
 * of 62 stay below that (15 to 10,000 by each checksum), two beside an unreadable one do not (5 to 100), and two in a text of
 * 1,000 are far above it. A false answer is one that nobody meant, and money that is sent to it is lost.
 */
export const MOST_FALSE = 1 / 100;

const choices = (from, count) => (count === 0 ? 1 : (choices(from - 1, count - 1) * from) / count);

/** How many texts have at most `errors` other characters in `data` characters, beside any at `unread` of them. */
export const textsWithin = (data, unread, errors) => {
  const sizes = Array.from({ length: errors + 1 }, (_, count) => choices(data - unread, count) * OTHERS ** count);
  return (OTHERS + 1) ** unread * sizes.reduce((sum, size) => sum + size);
};

/** How many texts one edit makes of `data` characters: two swapped, one left out, one put in. */
export const textsByEdit = (data) => data - 1 + data + (OTHERS + 1) * (data + 1);

/** How many false answers are to be expected where this many texts are tried. */
export const falseAnswers = (texts) => texts / ONE_IN;
