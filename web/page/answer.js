// What the page says of what was put in: the sentences, places and mended texts that page.js shows. No file that this one
// uses knows a browser.
import { asciiLower } from '../src/reasons.js';
import { CODEX32, isBegun } from './beginnings.js';
import { ofCodex32, partsOf } from './codex32.js';
import { checksumsFor } from './kinds.js';
import { ofLightning } from './lightning.js';
import { isConfidential, ofLiquid } from './liquid.js';
import { ofDescriptor } from './described.js';
import { otherKind } from './forms.js';
import { isScript, secretWithin, seedWords, severalTexts, untested } from './others.js';
import { isShaped } from './reading.js';
import { foreign } from './saying.js';
import { LINK, OTHER } from './sentences.js';
import { ofStrings } from './shares.js';
import { stringsIn } from './strings.js';
import { ofRightText, ofWrongText } from './texts.js';
import { tried } from './tried.js';
import { cleaned } from './typed.js';

// Longer texts are not read at all.
const MOST = 8192;

const tooLong = ({ length }) => ({ tone: 'other', ...OTHER.tooLong(length), notes: [] });

/** Whether a checksum of Bech32 or Bech32m accepts a text. */
export const isRight = (library) => (text) =>
  text !== '' && checksumsFor(text).some(([checksum]) => tried(() => library.check(checksum, text)).value);

const BEGUN = { tone: 'open', verdict: OTHER.begun, said: [] };

const ofOther = (library, text) => (isScript(text) ? ofDescriptor(library, text) : otherKind(text));

// What a text is by its beginning is found before anything is mended.
const ofBegun = (library, text) => {
  if (asciiLower(text).startsWith(CODEX32)) return ofCodex32(library, text);
  if (isConfidential(text)) return ofLiquid(library, text);
  return untested(text) ?? ofRightText(library, text) ?? ofLightning(library, text) ?? ofOther(library, text) ?? ofWrongText(library, text);
};

// What is said of a text that begins like one of a known kind, and has not the shape of one. The warning of a secret stays.
const ofForeign = (text, { warnings }) => otherKind(text) ?? { ...foreign(), ...(warnings && { warnings }) };

/** What is said of one text. Only one that begins like those of a known kind, and has their shape, is called wrong. */
export const ofText = (library, text) => {
  if (isBegun(text)) return BEGUN;
  const found = ofBegun(library, text), isJudged = !['wrong', 'open'].includes(found.tone) || isScript(text) || isShaped(text);
  return isJudged ? found : ofForeign(text, found);
};

const ofSeveral = (library, typed) => {
  const found = stringsIn(typed, (text) => partsOf(library, text).parts !== null);
  return found && { ...ofStrings(library, found.texts, (text) => ofText(library, text)), notes: found.notes };
};

const EMPTY = { tone: 'other', verdict: LINK.empty, said: [LINK.other] };

// What is said of the parts of a link that may be paid to, or of the one text.
const ofTexts = (library, texts, isLink) => {
  if (texts.length === 0) return isLink ? EMPTY : null;
  if (texts.length === 1) return ofText(library, texts[0].text);
  const parts = texts.map(({ name, text }) => ({ title: LINK.title(name), ...ofText(library, text) }));
  return { tone: 'other', verdict: LINK.several(texts.length), said: [LINK.each], parts };
};

/**
 * What the page says of what was put in, in a form of saying.js with `notes` on what was left out, or null where nothing
 * was put in.
 */
export const answer = (library, typed) => {
  if (typed.length > MOST) return tooLong(typed);
  const whole = isScript(typed) ? null : secretWithin(typed) ?? seedWords(typed) ?? ofSeveral(library, typed) ?? severalTexts(typed);
  if (whole) return { notes: [], ...whole };
  const { texts, notes, isLink } = cleaned(typed, isRight(library)), found = ofTexts(library, texts, isLink);
  return found && { notes, ...found };
};
