// What the page says of codex32 strings that are put in one after another.
import { asciiLower } from '../src/reasons.js';
import { answer, isRight, ofText } from './answer.js';
import { CODEX32 } from './beginnings.js';
import { partsOf } from './codex32.js';
import { failed } from './saying.js';
import { RECOVER, STRING, WARNINGS } from './sentences.js';
import { ofStrings } from './shares.js';
import { cleaned } from './typed.js';

// The page itself says that it is for a computer without network, and how shares are put in.
const SAID_ALREADY = [WARNINGS.string, WARNINGS.strings, STRING.others];
const fresh = (sentences) => sentences.filter((it) => !SAID_ALREADY.includes(it));
const freshly = ({ said, warnings = [], offers, ...found }) => ({
  ...found, said: fresh(said), warnings: fresh(warnings), ...(offers && { offers: offers.map((it) => ({ ...it, said: fresh(it.said) })) }),
});

// The texts that an answer is about: those that are offered, else the one that was put in.
const textsOf = ({ text, offers }, typed) => (offers ?? [{ text: text ?? typed }]).map((it) => it.text);

const isString = (text) => asciiLower(text).startsWith(CODEX32);

// What was put in, as it is added to the others, where it is a right string or one that is corrected.
const addedOf = (library, typed, texts) => {
  const isRead = texts.length === 1 && partsOf(library, texts[0]).parts !== null;
  return isRead ? cleaned(typed, isRight(library)).texts[0].text : null;
};

/**
 * What is said of a string that was put in, in a form of saying.js, or null where nothing was. `added` is the text to be added
 * to the others, which is as it was put in, or null where it is neither right nor corrected.
 */
export const ofString = (library, typed) => {
  const found = answer(library, typed), start = typed.trim();
  if (!found) return null;
  if (found.strings || found.choices) return { ...failed(RECOVER.several), tone: 'other', added: null };
  if (found.tone === 'warning') return { ...found, added: null };
  if (CODEX32.startsWith(asciiLower(start))) return { ...failed(RECOVER.begun), tone: 'open', added: null };
  const texts = textsOf(found, start);
  if (!texts.every(isString)) return { ...failed(RECOVER.other), tone: 'other', added: null };
  const { secretOf: _, ...alone } = found;
  return { ...freshly(alone), added: addedOf(library, typed, texts) };
};

/** What is said of the strings that were added, in a form of saying.js. */
export const ofAdded = (library, texts) => freshly(ofStrings(library, texts, (text) => ofText(library, text)));
