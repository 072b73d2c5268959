// What the page says of a Bech32 or Bech32m text.
import { ADDRESS_PARTS, isAddressLike, nearBeginnings } from './beginnings.js';
import { CHECKSUMS, LONG, LONG_CHECKSUMS, SHORT, checksumsFor, checksumsOf, kindOf, lengthOf, slipSaid } from './kinds.js';
import { MOST_UNREAD, errorsFor, offersByEdit, offersFor } from './offers.js';
import { faultsOf, readingOf, sizeOf, unreadSaid } from './reading.js';
import { foreign, mended, refusal, unfinished, unmended } from './saying.js';
import { LENGTH, NONE, OTHER, VALID, WARNINGS } from './sentences.js';
import { tried } from './tried.js';
import { listed } from './words.js';

const verdictOf = (name, { isAddress, known }) => {
  if (isAddress) return known ? VALID.address(known.title) : VALID.strangeAddress(name);
  return known ? VALID.known(known.what, name) : VALID.text(name);
};

const secretOf = ({ known }) => (known?.isSecret ? { warnings: [WARNINGS.key], isSecret: true } : {});

// Of a long text nothing is known of how many wrong characters a checksum tells.
const longSaid = ({ length }) => (length > SHORT ? [VALID.long(SHORT)] : []);

// A text of a known kind with a right checksum that is none of that kind. One of Bech32 may lack a `q` before its last `p`.
const brokenText = (library, text, name, { known, why }) => {
  const offers = offersByEdit(library, readingOf(text, '0'));
  if (offers.length) return mended(offers, [VALID.typed(name, known.network ? VALID.anAddress : known.what, why)]);
  const verdict = known.network ? VALID.broken(name) : VALID.brokenText(name, known.what);
  return { tone: 'wrong', verdict, said: [known.network ? VALID.why(why) : why], text, marked: [], ...secretOf({ known }) };
};

/** What is said of a text that a checksum accepts, or null. */
export const ofRightText = (library, text) => {
  for (const [checksum, name] of checksumsFor(text)) {
    const { value } = tried(() => library.check(checksum, text));
    if (!value) continue;
    const kind = kindOf(library, text, value, name), { isBroken, known, said, facts } = kind;
    if (isBroken) return brokenText(library, text, name, kind);
    if (!known?.isSecret) return { tone: 'right', verdict: verdictOf(name, kind), said: [...said, ...longSaid(text)], facts, text };
    return { tone: 'warning', verdict: VALID.secret(known.what, name), said, warnings: [WARNINGS.key], isSecret: true };
  }
  return null;
};

// ---- texts that are wrong

const CHECKSUM_LENGTH = 6;

const ADDRESSES_BEGIN = listed(ADDRESS_PARTS.map((part) => `“${part}1”`), 'or');

const wrongSaid = ({ known }) => {
  const checksums = known ? checksumsOf(known) : CHECKSUMS;
  return checksums.length > 1 ? NONE.wrong : NONE.wrongFor(checksums[0][1]);
};

const nothingSaid = (library, it) => {
  const { length } = it.unread;
  if (length > MOST_UNREAD) return NONE.tooMany(MOST_UNREAD);
  return NONE.tried(errorsFor(library, it), length, isAddressLike(it.text));
};

// Where the beginning of an address may have been meant.
const beginningSaid = (text) => {
  const near = nearBeginnings(text).find(({ from, slips }) => slips === 1 && from !== '');
  return near ? [NONE.beginning(near.from, ADDRESSES_BEGIN)] : [];
};

// A text of no part that the page knows: it may be right.
const unknownText = (text, it) => {
  const hints = beginningSaid(text), isOne = /^[!-~]+$/.test(it.part) && it.strange.length === 0 && sizeOf(it) >= CHECKSUM_LENGTH;
  if (!isOne || it.isMixed) return foreign(hints);
  const { verdict, said } = OTHER.unknownPart(it.part);
  return { ...foreign([...said, ...hints]), verdict };
};

const whatOf = ({ known }) => (known.network ? NONE.address : NONE.text);

const isSaid = ({ known }) => (known && !known.network ? [VALID.begins(known.what)] : []);

// A text that nothing mends: its length is told first, where no address has it.
const unmendedText = (library, text, it, faults) => {
  const length = lengthOf(library, text);
  if (length?.isShort && faults.length === 0) return unfinished(text, length);
  const said = [...(faults.length || length ? faults : [wrongSaid(it)]), nothingSaid(library, it), ...isSaid(it)];
  const first = length ? [length.sentence, ...length.slip] : [NONE.found];
  return unmended(it, whatOf(it), [...first, ...said], it.unread.length < MOST_UNREAD);
};

// A text that was mended. Where that changed its length, the wrong one is told.
const mendedText = (library, it, offers) => {
  const [{ faults, isBegun, isEdited }] = offers, length = isEdited ? lengthOf(library, it.text) : null;
  const wrong = length ? [length.whole] : [wrongSaid(it)];
  const isTold = isBegun || faults.length > 0 || (it.unread.length > 0 && !isEdited);
  return mended(offers, isTold ? faults : wrong);
};

// Texts of known kinds may be longer than the library corrects, or than it reads.
const longText = (library, text, it) => {
  if (it.characters.length > LONG) {
    const { verdict, said } = OTHER.long(it.known.what, it.characters.length, LONG);
    return { tone: 'other', verdict, said, ...secretOf(it) };
  }
  const { refused } = tried(() => library.check(LONG_CHECKSUMS[0][0], text)), said = [NONE.long(SHORT), VALID.begins(it.known.what)];
  if (refused.code !== 'WRONG_CHECKSUM') return { ...refusal(text, refused, [], it.unread), ...secretOf(it) };
  return { tone: 'wrong', verdict: wrongSaid(it), said, text, marked: it.unread, ...secretOf(it) };
};

// The front of a text of a known kind that has a fixed length, with no fault so far, or null.
const begunText = (text, it) => {
  const size = sizeOf(it), { known, separator, unread, isMixed, characters: { length } } = it, sizes = known?.sizes;
  if (!sizes || unread.length > 0 || isMixed || size >= Math.min(...sizes)) return null;
  const lengths = sizes.map((wanted) => separator + 1 + wanted);
  const slip = slipSaid(length, lengths), verdict = LENGTH.soFar(known.what, length, lengths);
  return { tone: 'open', verdict, said: slip, text, marked: [], ...secretOf(it) };
};

// A text of a known part with a fault that is seen without the checksum. One that is too short for a checksum may be a front.
const refusedText = (library, text, it, refused, faults) => {
  const isFront = refused.code === 'NO_CHECKSUM' && faults.length === 0, length = lengthOf(library, text);
  if (isFront && length?.isShort) return unfinished(text, length);
  if (isFront) return { ...refusal(text, refused), tone: 'open' };
  return refusal(text, refused, faults, it.unread, [NONE.isWrong(whatOf(it))]);
};

/** What is said of a text that no checksum accepts. */
export const ofWrongText = (library, text) => {
  const it = readingOf(text, '0');
  if (it.known && !it.known.network && it.characters.length > SHORT) return longText(library, text, it);
  const offers = offersFor(library, it);
  if (offers.length) return mendedText(library, it, offers);
  const first = tried(() => library.check('bech32m', text)).refused;
  if (!it.known) return unknownText(text, it);
  const begun = begunText(text, it);
  if (begun) return begun;
  const faults = [...faultsOf(it, MOST_UNREAD), ...unreadSaid(it)];
  const refused = it.filled === text ? first : tried(() => library.check('bech32m', it.filled)).refused;
  if (refused && refused.code !== 'WRONG_CHECKSUM') return { ...refusedText(library, text, it, refused, faults), ...secretOf(it) };
  return { ...unmendedText(library, text, it, faults), ...secretOf(it) };
};
