// The calls of bech32_c on descriptors. One may hold private keys, and may be long: they have an instance of their own, of which
// nothing is left after each call.
import { C } from './declared.js';
import { runner } from './instance.js';

const SIZE = 8, CHECKSUM = C.BECH32_DESCRIPTOR_CHECKSUM, NO_MEMORY = C.BECH32_NO_MEMORY, NO_ROOM = C.BECH32_NO_ROOM;

/** Longer ones are not mended, by one mistake, and by two changed characters. */
export const MAX_DESCRIPTOR = C.BECH32_MAX_DESCRIPTOR, MAX_DESCRIPTOR_TWO = C.BECH32_MAX_DESCRIPTOR_TWO;

// Room for this many texts, and memory, which suffices for most. Where they do not, the room that the call tells is made, or this
// many times as much memory, up to the most.
const TEXTS = 8, MORE = 8, MOST = 1 << 28;

// The kinds of mistakes by their numbers, with how much longer a text is that each makes.
const KINDS = [null, ['swapped', 0], ['leftOut', -1], ['putIn', 1], ['changed', 0]];

// A character that is not ASCII is one that no descriptor has.
const octetsOf = (text) => Uint8Array.from(Array.from(text), (it) => (it < '\u0080' ? it.charCodeAt(0) : 0x7f));

const mendedIn = (it, octets, changed, { lent, kinds, places, near }) => {
  const p = (region) => it.pointer(region), length = it.putBytes('text', octets);
  it.putSizes('memory', [it.at.lent, lent]);
  const number = it.call('bech32_descriptor_mend', p('text'), length, BigInt(changed), p('memory'), p('kinds'), BigInt(kinds),
    p('places'), BigInt(places / SIZE), p('near'), BigInt(near), p('count'));
  if (number) return { number, count: it.size('count') };
  let end = 0;
  const found = Array.from(it.copy('kinds', it.size('count')), (kind, i) => {
    const [name, more] = KINDS[kind], start = end, places = [0, 1].map((n) => it.size('places', 2 * i + n));
    end += octets.length + more;
    return { kind: name, places: [...new Set(places)], text: it.text('near', end - start, start) };
  });
  return { number, found };
};

const mendedByTwoIn = (it, octets, { lent, places, near }) => {
  const p = (region) => it.pointer(region), length = it.putBytes('text', octets);
  it.putSizes('memory', [it.at.lent, lent]);
  const number = it.call('bech32_descriptor_mend_two', p('text'), length, p('memory'), p('places'), BigInt(places / SIZE),
    p('near'), BigInt(near), p('count'));
  if (number) return { number, count: it.size('count') };
  const found = Array.from({ length: it.size('count') }, (_, i) => ({
    kind: 'changed', places: [0, 1].map((n) => it.size('places', 2 * i + n)), text: it.text('near', octets.length, i * octets.length),
  }));
  return { number, found };
};

// What a call answers with as much room as it needs: `grown` makes that for a number of texts.
const withRoom = (run, first, grown, call) => {
  for (let regions = first; ;) {
    const sizes = regions, answer = run(sizes, (it) => call(it, sizes));
    if (![NO_MEMORY, NO_ROOM].includes(answer.number)) return answer;
    regions = { ...sizes, ...(answer.number === NO_MEMORY ? { lent: MORE * sizes.lent } : grown(answer.count)) };
    if (Object.values(regions).some((it) => it > MOST)) return answer;
  }
};

const callsBy = (run) => ({
  checksum(text) {
    const octets = octetsOf(text), regions = { text: octets.length, out: CHECKSUM, outLength: SIZE, place: SIZE };
    return run(regions, (it) => {
      const p = (region) => it.pointer(region), length = it.putBytes('text', octets);
      const number = it.call('bech32_descriptor_checksum', p('text'), length, p('out'), BigInt(CHECKSUM), p('outLength'), p('place'));
      return number ? { number, place: it.size('place') } : { number, checksum: it.text('out', it.size('outLength')) };
    });
  },
  check(text) {
    const octets = octetsOf(text);
    return run({ text: octets.length, place: SIZE }, (it) => {
      const p = (region) => it.pointer(region), length = it.putBytes('text', octets);
      return { number: it.call('bech32_descriptor_check', p('text'), length, p('place')), place: it.size('place') };
    });
  },
  mend(text, changed) {
    const octets = octetsOf(text), size = octets.length + 1;
    const grown = (count) => ({ kinds: count, places: 2 * SIZE * count, near: count * size });
    const lent = C.BECH32_DESCRIPTOR_MEND_MEMORY(Math.min(size, MAX_DESCRIPTOR));
    const regions = { text: octets.length, memory: 2 * SIZE, lent, count: SIZE, ...grown(TEXTS) };
    return withRoom(run, regions, grown, (it, sizes) => mendedIn(it, octets, changed, sizes));
  },
  mendTwo(text) {
    const octets = octetsOf(text), size = octets.length;
    const grown = (count) => ({ places: 2 * SIZE * count, near: count * size });
    const lent = C.BECH32_DESCRIPTOR_TWO_MEMORY(Math.min(size, MAX_DESCRIPTOR_TWO));
    const regions = { text: size, memory: 2 * SIZE, lent, count: SIZE, ...grown(TEXTS) };
    return withRoom(run, regions, grown, (it, sizes) => mendedByTwoIn(it, octets, sizes));
  },
});

/** The calls on descriptors of the module of `bech32_c`. Places are those of characters. */
export const descriptorCalls = (module) => callsBy(runner(module));
