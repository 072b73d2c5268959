// What the page says of a codex32 string.
import { asciiLower } from '../src/reasons.js';
import { columnsOf, mendingOf } from './pair.js';
import { faultsOf, inCaseOf, readingOf, unreadSaid } from './reading.js';
import { mended, refusal, unmended } from './saying.js';
import { NONE, STRING, WARNINGS } from './sentences.js';
import { tried } from './tried.js';
import { hex } from './words.js';

// So much is mended: twice the wrong characters, with those that cannot be read.
const BOUND = 8;

// A string of more characters is a long one.
const SHORT = 93;

/** The share index of the secret. */
export const SECRET_INDEX = 's';

/**
 * The parts of a string that is right, with the number of bytes of its payload, null where that is no whole one; or why it is
 * refused.
 */
export const partsOf = (library, text) => {
  const { value, refused } = tried(() => library.codex32.share(text)), { length } = text;
  if (value) return { parts: { ...value, bytes: value.bytes.length, length }, refused };
  if (refused.code !== 'BITS_LEFT_OVER') return { parts: null, refused };
  const { 3: threshold, 8: shareIndex } = asciiLower(text), identifier = asciiLower(text.slice(4, 8));
  return { parts: { threshold: Number(threshold), identifier, shareIndex, bytes: null, length }, refused: null };
};

const stringSaid = (parts) => {
  if (parts.shareIndex === SECRET_INDEX) return [STRING.itself, STRING.facts(parts)];
  return [STRING.share(parts), STRING.facts(parts), STRING.others];
};

// The secret is shown of a string that is the secret itself.
const secretIn = ({ shareIndex }, text) => (shareIndex === SECRET_INDEX ? { secretOf: [text] } : {});

// ---- wrong strings

const proposed = (library, text) =>
  tried(() => (text.length > SHORT ? library.codex32.proposeLong(text) : library.codex32.propose(text)));

// What is proposed for a reading, or why it is refused: the lengths of a refusal are those of strings of either length.
const proposedFor = (library, { filled }) => {
  const { value, refused } = proposed(library, filled);
  if (refused?.code !== 'BAD_LENGTH') return { value, refused };
  return { value, refused: tried(() => library.codex32.share(filled.replaceAll('?', 'q'))).refused };
};

const offerOf = (library, before, found, begun) => {
  const text = inCaseOf(before.join(''), found), columns = columnsOf(before, Array.from(text), begun?.edit);
  const { parts, refused } = partsOf(library, text), mending = mendingOf(columns, begun);
  const said = parts ? [STRING.mended(mending.count), ...stringSaid(parts)] : [STRING.none(refused.message)];
  const known = { isAddress: false, isSound: parts !== null, isSecret: true, warning: WARNINGS.string };
  return { ...mending, columns, text, said, facts: [], ...known, ...(parts && secretIn(parts, text)) };
};

// What is offered for a reading of a string whose characters were `before`, for which the library proposes this, if anything.
const offersOf = (library, before, it, proposal, begun) =>
  proposal ? [{ ...offerOf(library, before, proposal.text, begun), faults: faultsOf(it, BOUND) }] : [];

/** What is offered for a reading of a string whose characters were `before`, with its beginning as it was mended. */
export const codex32Offers = (library, before, it, begun = null) =>
  offersOf(library, before, it, proposed(library, it.filled).value, begun);

/** What is said of a text that begins with `ms1`. */
export const ofCodex32 = (library, text) => {
  const { parts, refused: first } = partsOf(library, text);
  const warnings = [WARNINGS.string], right = { tone: 'right', verdict: STRING.valid, warnings, isSecret: true };
  if (parts) return { ...right, said: stringSaid(parts), text, ...secretIn(parts, text) };
  if (first.code === 'BAD_THRESHOLD' || first.code === 'BAD_SHARE_INDEX') return { ...refusal(text, first), warnings };
  const it = readingOf(text, '?'), seen = faultsOf(it, BOUND), faults = [...seen, ...unreadSaid(it)];
  const { value, refused } = proposedFor(library, it);
  const isShort = refused?.code === 'BAD_LENGTH' && refused.place === null;
  if (refused) return { ...refusal(text, refused, faults, it.unread), warnings, ...(isShort && { tone: 'open' }) };
  const [offer] = offersOf(library, it.characters, it, value, null), wrong = faults.length ? [] : [STRING.wrong];
  if (offer?.isSound) return mended([offer], [...seen, ...wrong]);
  const nothing = offer ? offer.said[0] : STRING.nothing;
  return { ...unmended(it, STRING.name, [NONE.found, ...faults, ...wrong, nothing], it.unread.length < BOUND), warnings };
};

// ---- the secret

/** The secret of strings that give it, as sentences with texts: what the button shows. */
export const secretSaid = (library, texts) => {
  const own = texts.find((it) => partsOf(library, it).parts?.shareIndex === SECRET_INDEX);
  const text = asciiLower(own ?? library.codex32.derive(texts, SECRET_INDEX)), { value } = tried(() => library.codex32.share(text));
  const bytes = value ? { name: STRING.bytes(value.bytes.length), text: hex(value.bytes) } : { name: STRING.noBytes, text: null };
  value?.bytes.fill(0);
  return [{ name: STRING.secret, text }, bytes];
};
