// What sentences are made of: numbers, places and lists in words.

const NUMERALS = ['no', 'one', 'two', 'three', 'four', 'five', 'six', 'seven', 'eight', 'nine', 'ten', 'eleven', 'twelve'];

export const grouped = (n) => n.toLocaleString('en');
export const numeral = (n) => NUMERALS[n] ?? grouped(n);
export const capital = (words) => words.charAt(0).toUpperCase() + words.slice(1);

/** A number of things at the head of a sentence. */
export const counted = (n, one, more) => `${capital(numeral(n))} ${n === 1 ? one : more}`;

export const listed = (parts, word = 'and') =>
  (parts.length < 2 ? parts.join('') : `${parts.slice(0, -1).join(', ')} ${word} ${parts.at(-1)}`);

export const hex = (bytes) => Array.from(bytes, (byte) => byte.toString(16).padStart(2, '0')).join('');
