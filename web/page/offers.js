// The texts that are offered for a wrong Bech32 or Bech32m text. There are none but of a part that the page knows, and none
// where more false answers are to be expected than a stated figure.
import { asciiLower } from '../src/reasons.js';
import { CODEX32, nearBeginnings, withSeparatorSwapped } from './beginnings.js';
import { MOST_FALSE, falseAnswers, textsByEdit, textsWithin } from './chance.js';
import { codex32Offers } from './codex32.js';
import { checksumsOf, isInUse, kindOf, lengthOf } from './kinds.js';
import { columnsOf, edited, mendingOf, sizesOf } from './pair.js';
import { knownPart } from './parts.js';
import { faultsOf, inCaseOf, readingOf, sizeOf } from './reading.js';
import { MENDED, VALID, WARNINGS } from './sentences.js';
import { tried } from './tried.js';

/** The most unreadable characters that are found. */
export const MOST_UNREAD = 3;

const CHECKSUM_LENGTH = 6;

// The most wrong characters that are looked for; a correction finds as many beside unreadable ones.
const MOST_ERRORS = 2;
const correctedErrors = ({ unread }) => Math.floor((MOST_UNREAD - unread.length) / 2);

// How many texts are tried for a reading in all: those with other characters, and those that one edit makes.
const textsTried = (it, errors) => {
  const size = sizeOf(it), { length } = it.unread;
  return checksumsOf(it.known).length * (textsWithin(size, length, errors) + textsByEdit(size));
};

/**
 * How many wrong characters are looked for, beside those that cannot be read: as many as the stated figure allows, and of an
 * address with another length than those in use as many as a correction finds.
 */
export const errorsFor = (library, it) => {
  const most = lengthOf(library, it.text) ? correctedErrors(it) : MOST_ERRORS;
  const counts = Array.from({ length: most }, (_, less) => most - less);
  return counts.find((errors) => falseAnswers(textsTried(it, errors)) <= MOST_FALSE) ?? 0;
};

// ---- the offers

// The parts of a text that a checksum accepts, as the library has them. It has listed the text, so it is not asked again.
const acceptedParts = (text) => {
  const separator = text.lastIndexOf('1');
  return { hrp: text.slice(0, separator), data: text.slice(separator + 1, -CHECKSUM_LENGTH) };
};

// What is said of a text that the checksum of this name accepts, with this many changes.
const acceptedOf = (library, text, [, name], count) => {
  const kind = kindOf(library, text, acceptedParts(text), name), { isAddress, isOfferable, known, said, facts } = kind;
  const right = isAddress ? [MENDED.address(count, known.title)] : [MENDED.text(count, name), VALID.is(known.what)];
  const isSecret = known.isSecret ?? false, size = text.length - text.lastIndexOf('1') - 1;
  const isSound = isOfferable && (known.sizes?.includes(size) ?? true);
  return { text, said: [...right, ...said], facts, isAddress, isSound, isSecret, ...(isSecret && { warning: WARNINGS.key }) };
};

const offerOf = (library, before, found, checksum, begun) => {
  const text = inCaseOf(before.join(''), found), columns = columnsOf(before, Array.from(text), begun?.edit);
  const mending = mendingOf(columns, begun);
  return { ...mending, columns, ...acceptedOf(library, text, checksum, mending.count) };
};

// The texts that `mend` finds for a reading, by each checksum of its kind.
const offersBy = (library, mend, it, before, begun) =>
  checksumsOf(it.known).flatMap((checksum) => {
    const { value } = tried(() => mend(checksum[0], it.filled, it.unread));
    const faults = faultsOf(it, MOST_UNREAD);
    return (value ?? []).map(({ text }) => ({ ...offerOf(library, before, text, checksum, begun), faults }));
  });

const isSound = (offer) => offer.isSound;
const corrected = (library) => (...given) => [library.correct(...given)].filter(Boolean);

// All texts with few wrong characters, the correction among them.
const ownOffers = (library, it) => {
  if (!it.known || it.unread.length > MOST_UNREAD) return [];
  const errors = Math.max(errorsFor(library, it), correctedErrors(it));
  return offersBy(library, (...given) => library.nearest(...given, errors), it, it.characters, null);
};

// The readings of a text that begins nearly as addresses in use do, and has the length of one. One without a beginning has
// data alone.
const begunReadings = (library, text) => nearBeginnings(text)
  .filter(({ to, slips, text: begun }) => to !== CODEX32 && slips === 1 && isInUse(library, begun))
  .map((beginning) => ({ beginning, it: readingOf(beginning.text, '0') }))
  .filter(({ beginning: { from }, it }) => it.unread.length <= MOST_UNREAD && (from !== '' || it.strange.length === 0));

const beginningOf = (text, { from, to, slips }) =>
  ({ from, to: inCaseOf(text, to), slips, edit: { at: 0, taken: from.length, put: to.length } });

// Addresses that begin nearly as the text does.
const addressesBegun = (library, { text, characters }) => {
  const readings = begunReadings(library, text);
  const texts = readings.reduce((sum, { it }) => sum + textsTried(it, correctedErrors(it)), 0);
  if (falseAnswers(texts) > MOST_FALSE) return [];
  return readings.flatMap(({ beginning, it }) =>
    offersBy(library, corrected(library), it, characters, beginningOf(text, beginning)).filter(({ isAddress }) => isAddress));
};

// Codex32 strings that begin nearly as the text does.
const stringsBegun = (library, { text, characters }) => nearBeginnings(text).filter(({ to }) => to === CODEX32)
  .flatMap((beginning) => codex32Offers(library, characters, readingOf(beginning.text, '?'), beginningOf(text, beginning)));

// ---- a character missing, one too many, or two that are swapped

// Whether Bech32's weakness may have made a text of another.
const isWeak = ([checksum], text, { kind, place }) => {
  const behind = text.length - place - sizesOf[kind].put;
  return checksum === 'bech32' && /p$/i.test(text) && behind < 2;
};

// What the library finds for a text, all of whose characters can be read.
const foundEdits = (library, { filled, unread }, checksum) =>
  (unread.length > 0 ? [] : tried(() => library.nearEdits(checksum, filled)).value ?? []);

// What it does not try: the one character that may not stand there is left out, the separator is swapped with the next one.
const otherEdits = ({ text, filled, known, unread, strange }) => {
  const isOne = known && strange.length === 1 && unread.length === 1, [place] = strange, swapped = withSeparatorSwapped(text);
  const without = asciiLower(Array.from(filled).filter((_, i) => i !== place).join(''));
  return [
    ...(isOne ? [{ text: without, edit: { kind: 'leftOut', place } }] : []),
    ...(swapped ? [{ text: swapped.text, edit: { kind: 'swapped', place: swapped.place } }] : []),
  ];
};

const checksumsOfText = (text) => {
  const known = knownPart(asciiLower(text.slice(0, text.lastIndexOf('1'))));
  return known ? checksumsOf(known) : [];
};

// What one edit makes of a text.
const editOffers = (library, it) => {
  const faults = faultsOf({ ...it, strange: [] }, MOST_UNREAD);
  const offerBy = (checksum) => ({ text: found, edit }) => {
    const text = inCaseOf(it.text, found), columns = columnsOf(it.characters, Array.from(text), { at: edit.place, ...sizesOf[edit.kind] });
    const mending = edited(columns, edit), { said, ...known } = acceptedOf(library, text, checksum, mending.count);
    const more = isWeak(checksum, text, edit) ? [MENDED.weakness] : [];
    return { ...mending, columns, ...known, said: [...said, ...more], faults, isEdited: true };
  };
  const own = it.known ? checksumsOf(it.known).flatMap((checksum) => foundEdits(library, it, checksum[0]).map(offerBy(checksum))) : [];
  const others = otherEdits(it).flatMap((other) => checksumsOfText(other.text)
    .filter(([checksum]) => tried(() => library.check(checksum, other.text)).value).map((checksum) => offerBy(checksum)(other)));
  return [...own, ...others];
};

/** The valid texts of its kind that one edit makes of a text that is read so. */
export const offersByEdit = (library, it) => editOffers(library, it).filter(isSound);

const addressesFirst = (offers) => offers.sort((a, b) => b.isAddress - a.isAddress);

/**
 * What is offered for a text that is read so: the texts with the fewest wrong characters, and below them those that one edit
 * makes, addresses first. Two neighbours that were swapped are no two wrong characters. What looks like one of a known kind
 * and is none is left out.
 */
export const offersFor = (library, it) => {
  const edits = offersByEdit(library, it), isEdit = ({ text }) => edits.some((edit) => edit.text === text);
  const found = [...ownOffers(library, it), ...addressesBegun(library, it), ...stringsBegun(library, it)];
  const sound = found.filter((offer) => isSound(offer) && !isEdit(offer));
  const least = Math.min(...sound.map(({ cost }) => cost));
  return [...addressesFirst(sound.filter(({ cost }) => cost === least)), ...addressesFirst(edits)];
};
