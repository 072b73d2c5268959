// The codex32 strings that stand in what was put in, where there are several: on lines of their own, in groups, or one
// behind another.
import { CODEX32, knownBeginning, nearBeginnings } from './beginnings.js';
import { AROUND } from './sentences.js';
import { withoutMarks, withoutQuotes } from './typed.js';

const LINES = /[\n\r]+/, PIECES = /[\s,;|]+/;
const BEGINNING = /^(?:bitcoin:)?(?:bcrt|bc|tb|ms)1/i;

// A string has at least this many characters without its beginning.
const WHOLE = 45;

// One that has more is two or more without a space, each of which begins with `ms1`: a `1` is no data.
const LEAST_LONG = 125, MOST = 127, WITHIN = /(?<=[0-9a-z?]{45})(?=ms1)/gi;

const isString = (text) => knownBeginning(text) === CODEX32 || nearBeginnings(text).some(({ to }) => to === CODEX32);
const isNear = (text) => nearBeginnings(text).some(({ from, to, slips }) => to === CODEX32 && slips === 1 && from !== '');
const isLong = ({ length }) => length >= LEAST_LONG && length <= MOST;

const begins = (piece) => BEGINNING.test(piece);
const isStringLike = (piece) => begins(piece) || isNear(piece);
const apart = (piece) => (piece.length > MOST && isStringLike(piece) ? piece.replace(WITHIN, ' ').split(' ') : [piece]);

// What a piece of a line is: the `first` of a string, `more` of the one before it, or a `label`, which is no part of any.
const kindOf = (piece, last, isLineStart, isBefore, isRight) => {
  if (begins(piece)) return 'first';
  if (last === undefined) return isBefore ? 'label' : 'first';
  if (last.length < WHOLE) return 'more';
  if (isLineStart && isNear(piece)) return 'first';
  if (isRight(last)) return piece.length < WHOLE ? 'label' : 'first';
  if (isLineStart && isBefore) return 'label';
  return piece.length < WHOLE || isLong(last + piece) ? 'more' : 'first';
};

const MOST_LABELS = 3;

const labelsSaid = (labels) =>
  (labels.length === 0 ? [] : [AROUND.labels(labels.slice(0, MOST_LABELS), labels.length > MOST_LABELS)]);

/**
 * The strings in what was put in, with notes on what was left out, or null where these are no several codex32 strings.
 * What follows on one that `isRight` is no part of it.
 */
export const stringsIn = (typed, isRight) => {
  const { text, notes } = withoutMarks(typed), texts = [], labels = [], quoted = new Set();
  for (const line of text.split(LINES)) {
    const bare = line.split(PIECES).map(withoutQuotes);
    for (const { notes: said } of bare) said.forEach((it) => quoted.add(it));
    const pieces = bare.flatMap((it) => apart(it.text)).filter((it) => it !== '');
    pieces.forEach((piece, i) => {
      const kind = kindOf(piece, texts.at(-1), i === 0, pieces.slice(i).some(begins), isRight);
      if (kind === 'first') texts.push(piece);
      if (kind === 'more') texts[texts.length - 1] += piece;
      if (kind === 'label') labels.push(piece);
    });
  }
  if (texts.length < 2 || !texts.every(isString) || !texts.some((it) => knownBeginning(it) === CODEX32)) return null;
  return { texts, notes: [...notes, ...labelsSaid(labels), ...quoted] };
};
