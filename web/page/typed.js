// The texts to read in what was put in, and a sentence for each thing around them that was left out.
import { linkOf } from './links.js';
import { AROUND } from './sentences.js';

const SPACE = '[ \\t\\n\\v\\f\\r\\u00a0]+';
const SPACES = new RegExp(SPACE, 'g'), OUTER_SPACES = new RegExp(`^${SPACE}|${SPACE}$`, 'g');
const UNSEEN = /[\u00ad\u200b-\u200f\u202a-\u202e\u2060-\u2069\ufeff]/g;
const QUOTES = /^["'`\u00ab\u00bb\u2018-\u201f\u2039\u203a]+|["'`\u00ab\u00bb\u2018-\u201f\u2039\u203a.,;]+$/g;

// Avalanche puts the chain before a Bech32 text.
const CHAIN = /^([XPC]-)(?=(?:avax|fuji)1)/i;

/** A text without the marks that are not seen, and notes on that. */
export const withoutMarks = (text) => {
  const marks = [...new Set(text.match(UNSEEN))];
  return { text: text.replace(UNSEEN, '').replace(OUTER_SPACES, ''), notes: marks.length ? [AROUND.marks(marks)] : [] };
};

/** A text without the quotes and stops around it, and notes on that. */
export const withoutQuotes = (text) => {
  const rest = text.replace(QUOTES, '').replace(OUTER_SPACES, '');
  return { text: rest, notes: rest === text ? [] : [AROUND.quotes] };
};

const withoutSpaces = (text) => {
  const rest = text.replace(SPACES, '');
  return { text: rest, notes: rest === text ? [] : [AROUND.spaces] };
};

const withoutChain = (text) => {
  const [, mark] = CHAIN.exec(text) ?? [];
  return mark ? { text: text.slice(mark.length), notes: [AROUND.chain(mark)] } : { text, notes: [] };
};

// A text without what stands around it. Nothing is taken from one that `isRight`.
const without = (steps, { text: given, notes: before }, isRight) => {
  let text = given, notes = before;
  for (const step of steps) {
    if (isRight(text)) break;
    const { text: rest, notes: more } = step(text);
    text = rest;
    notes = [...notes, ...more];
  }
  return { text, notes };
};

/**
 * The texts in what was put in, none or one, or several in a link, each by the name of its part: without what stands around
 * them, with notes on that. `isLink`: it is a link with parts. Nothing is taken from a text that `isRight`.
 */
export const cleaned = (typed, isRight) => {
  const bare = without([withoutQuotes], withoutMarks(typed), isRight), link = isRight(bare.text) ? null : linkOf(bare.text);
  const ways = link ? link.ways : [{ name: 'address', text: bare.text }];
  const texts = ways.map(({ name, text }) => ({ name, ...without([withoutSpaces, withoutChain], { text, notes: [] }, isRight) }));
  const notes = [...bare.notes, ...(link ? link.notes : []), ...texts.flatMap((it) => it.notes)];
  const found = texts.map(({ name, text }) => ({ name, text })).filter(({ text }) => text !== '');
  return { texts: found, notes: [...new Set(notes)], isLink: link?.hasParts ?? false };
};
