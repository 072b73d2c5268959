// The forms of what the page says.
//
// `tone` is how it stands: `right`, `mended`, `wrong`, `open` (not all of it is there), `other` (nothing that the page can
// test) or `warning`. `verdict` and `said` are sentences, and so are the `warnings`, which stand above each button. `text`
// with the places `marked` is a text as it was put in; `facts` are texts with a name; `offers` are mended texts; `choices` are
// texts to be put in by a click; `parts` are the answers of the parts of a link, each with a `title`. What `isSecret` is not
// to be copied. `strings` are codex32 strings of a set, each with a `title`, and what is said of it alone (`found`);
// `secretOf` are those that give the secret, which is shown by a button.
import { ordinal } from '../src/reasons.js';
import { CAUTION, MENDED, NONE, OTHER } from './sentences.js';

// More than these are not shown.
const MOST = 10;

const severalSaid = (offers) =>
  MENDED.several(offers.length, offers.every(({ isAddress }) => isAddress) ? 'addresses' : 'texts');

// Where the letters have another case and nothing else is changed, the headline says all.
const isSame = ({ columns }) => columns.every(({ isChanged }) => !isChanged);

/** Mended texts, and what was wrong before. */
export const mended = (offers, faults) => {
  const verdict = offers.length === 1 ? offers[0].headline : severalSaid(offers);
  const left = offers.length - MOST, warning = offers.find((offer) => offer.warning)?.warning;
  const said = [...(left > 0 ? [MENDED.left(left)] : []), ...(isSame(offers[0]) ? [] : faults)];
  const [{ secretOf }] = offers, warnings = [CAUTION, ...(warning ? [warning] : [])];
  const shown = { tone: 'mended', verdict, warnings, offers: offers.slice(0, MOST), said };
  return { ...shown, isSecret: offers.some((offer) => offer.isSecret), ...(secretOf && { secretOf }) };
};

/** An answer that is no more than this sentence. */
export const failed = (sentence) => ({ tone: 'wrong', verdict: sentence, notes: [], said: [] });

/** What is said of a text of no kind that the page knows. It may be right, so it is not called wrong. */
export const foreign = (more = []) => ({ tone: 'other', verdict: OTHER.foreign, said: more, notes: [] });

/**
 * That a text of a known kind, such as an `address`, is wrong and that nothing mends it; then what else is known of it. Where
 * more of it may be left open, that is said.
 */
export const unmended = ({ text, unread }, what, said, canMore) =>
  ({ tone: 'wrong', verdict: NONE.isWrong(what), said: [...said, ...(canMore ? [NONE.unsure] : [])], text, marked: unread });

/** That a text is the front of an address, of this length. */
export const unfinished = (text, { sentence, slip }) => ({ tone: 'open', verdict: sentence, said: slip, text, marked: [] });

/** What the library refuses, after the faults that were seen before it, and after the verdict where there is one. */
export const refusal = (text, { message, place }, faults = [], unread = [], before = []) => {
  const [verdict, ...said] = [...before, ...faults, message];
  return { tone: 'wrong', verdict, said, text, marked: place === null ? unread : [...unread, ordinal(text, place) - 1] };
};
