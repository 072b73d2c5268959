// The calls of bech32_c that list texts: each counts all of them, and puts as many as there is room for.
import { C } from './declared.js';

const SIZE = 8;
const NO_MEMORY = C.BECH32_NO_MEMORY, NO_ROOM = C.BECH32_NO_ROOM;

// Room for the texts and for the edits that make them, and memory that they are worked out in, which suffices for most. Where
// they do not, the room that the call tells is made, or this many times as much memory, up to the most.
const ROOM = 16384, EDITS = 8, MEMORY = 65536 + 512 * 1024, MORE = 8, MOST = 1 << 24;

/** The regions that these calls want beside `text` and `erasures`. */
export const LIST_REGIONS = {
  memory: 2 * SIZE, lent: MEMORY, near: ROOM, kinds: EDITS, editLocations: SIZE * EDITS, count: SIZE,
};

// Calls a function in an instance with these regions: its number, and how many texts there are in all.
const countedIn = (it, { lent }, name, before, after) => {
  it.putSizes('memory', [it.at.lent, lent]);
  const number = it.call(name, ...before, it.pointer('memory'), ...after, it.pointer('count'));
  return { number, count: it.size('count') };
};

// The texts of one length that were counted.
const nearOf = (it, { number, count }, size) => {
  if (number) return { number, wanted: { near: count * size } };
  return { number, texts: Array.from({ length: count }, (_, i) => it.text('near', size, i * size)) };
};

/** Lists the texts near to one; of the erasures 0 is the last character. */
export const nearestOf = (checksum, text, erasures, errors) => (it, regions) => {
  const { length } = it.putText('text', text), given = it.putSizes('erasures', erasures);
  const before = [checksum, it.pointer('text'), length, it.pointer('erasures'), given, BigInt(errors)];
  const counted = countedIn(it, regions, 'bech32_nearest', before, [it.pointer('near'), BigInt(regions.near)]);
  return nearOf(it, counted, Number(length));
};

/** The same by Blech32. */
export const liquidNearestOf = (text, erasures, errors) => (it, regions) => {
  const { length } = it.putText('text', text), given = it.putSizes('erasures', erasures);
  const before = [it.pointer('text'), length, it.pointer('erasures'), given, BigInt(errors)];
  const counted = countedIn(it, regions, 'bech32_liquid_nearest', before, [it.pointer('near'), BigInt(regions.near)]);
  return nearOf(it, counted, Number(length));
};

// The kinds of edits by their numbers, with how much longer a text is that each makes.
const KINDS = [null, ['swapped', 0], ['leftOut', -1], ['putIn', 1]];

/** Lists the texts that one edit makes of a text, with its kind and its location; 0 is that of the last character. */
export const nearEditsOf = (checksum, text) => (it, regions) => {
  const p = (region) => it.pointer(region), { length } = it.putText('text', text), size = Number(length);
  const after = [p('kinds'), BigInt(regions.kinds), p('editLocations'), BigInt(regions.editLocations / SIZE), p('near'),
    BigInt(regions.near)];
  const { number, count } = countedIn(it, regions, 'bech32_near_edits', [checksum, p('text'), length], after);
  if (number) return { number, wanted: { kinds: count, editLocations: SIZE * count, near: count * (size + 1) } };
  let end = 0;
  const edits = Array.from(it.copy('kinds', count), (kind, i) => {
    const [name, more] = KINDS[kind], start = end;
    end += size + more;
    return { kind: name, location: it.size('editLocations', i), text: it.text('near', end - start, start) };
  });
  return { number, edits };
};

// What suffices for each suggestion: memory, and room for this many addresses.
const SUGGESTIONS = C.BECH32_SUGGESTIONS;

/** The regions that suggestions want, in an instance that is wiped after each call. */
export const SUGGEST_REGIONS = {
  text: 8192, hrp: 96, memory: 2 * SIZE, lent: C.BECH32_SUGGEST_MEMORY, kinds: SUGGESTIONS, editLocations: SIZE * SUGGESTIONS,
  near: C.BECH32_MAX_SEGWIT_TEXT * SUGGESTIONS,
  count: SIZE,
};

// Kinds beside those of edits: nothing is done, and characters are replaced.
const UNCHANGED = 0, REPLACED = 4;

/** Lists the addresses with a human-readable part that may have been meant by a text. */
export const suggestionsOf = (text, hrp) => (it, regions) => {
  const p = (region) => it.pointer(region), { length } = it.putText('text', text), part = it.putText('hrp', hrp).length;
  it.putSizes('memory', [it.at.lent, regions.lent]);
  const number = it.call('bech32_suggest', p('text'), length, p('hrp'), part, p('memory'), p('kinds'), BigInt(SUGGESTIONS),
    p('editLocations'), BigInt(SUGGESTIONS), p('near'), BigInt(regions.near), p('count'));
  if (number) return { number };
  let end = 0;
  const found = Array.from(it.copy('kinds', it.size('count')), (kind, i) => {
    const [name, more] = [UNCHANGED, REPLACED].includes(kind) ? [null, 0] : KINDS[kind], start = end;
    end += Number(length) + more;
    return { kind: name, place: it.size('editLocations', i), text: it.text('near', end - start, start) };
  });
  return { number, found };
};

// What is lent after so much: up to the most, and after that more than it, which is not lent.
const moreThan = (lent) => (lent < MOST ? Math.min(MORE * lent, MOST) : MORE * lent);

/** What is listed in an instance, or, where that has too little room or memory, in another one, by its `run`. */
export const listed = (run, it, regions, list) => {
  let sizes = regions, answer = list(it, sizes);
  while ([NO_MEMORY, NO_ROOM].includes(answer.number)) {
    sizes = { ...sizes, ...(answer.number === NO_MEMORY ? { lent: moreThan(sizes.lent) } : answer.wanted) };
    if (Object.values(sizes).some((size) => size > MOST)) return answer;
    const wanted = sizes;
    answer = run(wanted, (other) => list(other, wanted));
  }
  return answer;
};
