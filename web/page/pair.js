// A text beside the one that it was mended to, and the words for what was wrong. Places are those of the mended text.
import { asciiLower } from '../src/reasons.js';
import { MENDED } from './sentences.js';

const isSame = (from, to) => asciiLower(from) === asciiLower(to);

// Characters side by side from both ends; what only one text has stands between, beside null.
const sideBySide = (before, after) => {
  const least = Math.min(before.length, after.length), size = Math.max(before.length, after.length);
  let front = 0, back = 0;
  while (front < least && isSame(before[front], after[front])) front++;
  while (back < least - front && isSame(before.at(-1 - back), after.at(-1 - back))) back++;
  const spread = (it) => {
    const end = it.length - back;
    return [...it.slice(0, end), ...Array(size - it.length).fill(null), ...it.slice(end)];
  };
  const other = spread(after);
  return spread(before).map((from, i) => ({ from, to: other[i] }));
};

// Gives each column its place, and tells whether it has a change. Letters that change their case alone are no changes.
const placed = (columns) => {
  let place = 0;
  return columns.map(({ from, to }) => {
    const isChanged = from === null || to === null || !isSame(from, to);
    const column = { from, to, place, isChanged };
    place += Number(to !== null);
    return column;
  });
};

/**
 * The columns of a text and the mended one. All characters stand side by side, but those of an edit: of `before`,
 * `taken` characters at the place `at` became `put` others.
 */
export const columnsOf = (before, after, { at, taken, put } = { at: 0, taken: 0, put: 0 }) => placed([
  ...sideBySide(before.slice(0, at), after.slice(0, at)),
  ...sideBySide(before.slice(at, at + taken), after.slice(at, at + put)),
  ...sideBySide(before.slice(at + taken), after.slice(at + put)),
]);

// ---- what was wrong, in words

// More changes than these are counted in a sentence, and listed below it.
const MOST = 3;

/** How many characters an edit takes from its place, and puts there. */
export const sizesOf = { swapped: { taken: 2, put: 2 }, leftOut: { taken: 1, put: 0 }, putIn: { taken: 0, put: 1 } };

/** What was wrong with a text that one edit of `kind` mends at a place, in the form of `mendingOf`. */
export const edited = (columns, { kind, place }) => {
  const characters = columns.filter(({ isChanged }) => isChanged).map(({ from, to }) => from ?? to);
  return { headline: MENDED.edit(kind, place, characters), changes: [], count: 1, cost: 1, isBegun: false };
};

/**
 * What was wrong with a text: a `headline`, each of the `changes` where the headline counts them alone, their `count`, and as
 * `cost` how much it was, those that cannot be read apart. A `beginning`, where it was mended, is told as a whole.
 */
export const mendingOf = (columns, beginning = null) => {
  const changes = columns.filter(({ isChanged, place }) => isChanged && place >= (beginning?.to.length ?? 0))
    .map(({ place: at, from, to }) => ({ at, from, to }));
  const wrong = changes.filter(({ from }) => from !== '?'), found = changes.filter(({ from }) => from === '?');
  const parts = [
    ...(beginning ? [MENDED.beginning(beginning.from, beginning.to)] : []),
    ...(wrong.length ? [MENDED.wrong(wrong, MOST)] : []),
    ...(found.length ? [MENDED.restored(found, MOST)] : []),
  ];
  const isCounted = wrong.length > MOST || found.length > MOST;
  return {
    headline: parts.join(' ') || MENDED.cases, changes: isCounted ? changes.map(MENDED.change) : [],
    count: changes.length + Number(beginning !== null), cost: wrong.length + (beginning?.slips ?? 0), isBegun: beginning !== null,
  };
};
