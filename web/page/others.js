// What the page cannot test, secrets within a text, seed words, and several texts at once. This is seen by how they look,
// without the library.
import { ALPHABET, asciiLower } from '../src/reasons.js';
import { SECRETS_WITHIN } from './forms.js';
import { partOf } from './parts.js';
import { OTHER, WARNINGS } from './sentences.js';

const other = ({ verdict, said }, more = []) => ({ tone: 'other', verdict, said: [...said, ...more] });
const warning = (verdict, warnings, said = []) => ({ tone: 'warning', verdict, said, warnings });

// ---- what has no checksum

const OFFER = /^ln([ori])1/i;

// The first character of an offer that cannot be part of it: parts of an offer are joined by `+`.
const strangeOf = (text, from) =>
  Array.from(text).map((character, at) => ({ character, at }))
    .find(({ character, at }) => at >= from && character !== '+' && !ALPHABET.includes(asciiLower(character)));

/** What is said of a text that has no checksum, by its beginning; or null. */
export const untested = (text) => {
  const [start, kind] = OFFER.exec(text) ?? [];
  if (!start) return null;
  const strange = strangeOf(text, start.length), said = strange ? [OTHER.strange(strange.at, strange.character)] : [];
  return { ...other(OTHER.offer(asciiLower(kind)), said), text, marked: strange ? [strange.at] : [] };
};

// ---- secrets within a text, and script expressions

/** The secret that stands in a text, and where, or null. */
export const withinOf = (text) => SECRETS_WITHIN.map(([form, what]) => ({ at: text.search(form), what })).find(({ at }) => at >= 0) ?? null;

const SCRIPT = /^[a-z][a-z0-9_]*\(/i;

/** Whether a text is a script expression, as descriptors are: its commas and brackets stand between no texts. */
export const isScript = (text) => SCRIPT.test(text.trim());

/** A warning where a secret stands in what was put in, with something before it, or null. */
export const secretWithin = (typed) => {
  const text = typed.trim(), found = withinOf(text);
  return found && found.at > 0 && !isScript(text) ? warning(OTHER.within(found.what), [WARNINGS.key]) : null;
};

const LEAST_WORDS = 4;
const WORD = /^\p{L}{2,10}$/u, NUMBER = /^\d+[.):]?/;

/** A warning where words stand there as wallets print them for a backup, or null. */
export const seedWords = (typed) => {
  const words = typed.split(/[\s,;]+/).map((it) => it.replace(NUMBER, '')).filter((it) => it !== '');
  if (words.length < LEAST_WORDS || !words.every((it) => WORD.test(it))) return null;
  return warning(OTHER.words.verdict, [WARNINGS.words], OTHER.words.said);
};

// ---- several texts

const PIECES = /[\s,;|]+/;
const BEGINNING = /^(?:bitcoin:)?(?:bcrt|bc|tb|ms|cl)1/i, WHOLE_OLDER = /^[13][1-9A-HJ-NP-Za-km-z]{25,34}$/;

// A `b` and a `1` are no data, so these behind an address begin another.
const FOLLOWING = /(?<=(?:bcrt|bc|tb|ms)1[02-9ac-hj-np-z?]{10,})(?=(?:bcrt|bc|tb)1)/gi;

// A text in groups begins with a piece as short as that, and a whole text of another known part is no piece of that size.
const GROUP = 6, LEAST = 14;

const begins = (piece) =>
  BEGINNING.test(piece) || WHOLE_OLDER.test(piece) || (piece.length >= LEAST && partOf(piece).known !== null);

const textsIn = (typed) => {
  const texts = [];
  let isGrouped = false;
  for (const piece of typed.replace(FOLLOWING, ' ').split(PIECES)) {
    if (begins(piece)) {
      texts.push(piece);
      isGrouped = piece.length <= GROUP;
    } else if (isGrouped) texts[texts.length - 1] += piece;
  }
  return texts;
};

// What some texts are to be warned of, where one of them is a secret.
const warningsOf = (texts) => {
  if (texts.some((it) => /^(?:ms|cl)1/i.test(it))) return { warnings: [WARNINGS.strings] };
  return texts.some((it) => partOf(it).known?.isSecret) ? { warnings: [WARNINGS.key] } : {};
};

/** That several texts stand there, with each to be chosen, or null. */
export const severalTexts = (typed) => {
  const texts = textsIn(typed), choices = [...new Set(texts)];
  if (texts.length < 2) return null;
  const isAddress = (text) => WHOLE_OLDER.test(text) || /^(?:bitcoin:)?(?:bcrt|bc|tb)1/i.test(text);
  if (choices.length === 1) return { ...other(OTHER.same), choices, ...warningsOf(choices) };
  const kind = choices.every(isAddress) ? 'addresses' : 'texts';
  return { ...other(OTHER.several(choices.length, kind)), choices, ...warningsOf(choices) };
};
