// Columns: many rows in one call. A column is put into the memory of a module of its own in blocks, each once, and what is made
// of it is an array of Apache Arrow again.
import { C } from './declared.js';
import { Instance } from './instance.js';
import { ALL_CHECKSUMS, TEXT_ROOM } from './calls.js';
import { SENTENCES } from './refusals.js';

/** The row is null. */
export const NULL_ROW = C.BECH32_NULL_ROW;
/** The offsets of the row do not lie in the column. */
export const BAD_ROW = C.BECH32_BAD_NUMBER;
/** The address has another human-readable part than is wanted. */
export const OTHER_HRP = C.BECH32_OTHER_HRP;

const TEXT_TOO_LONG = C.BECH32_TEXT_TOO_LONG, ADDRESS_TOO_LONG = C.BECH32_ADDRESS_TOO_LONG;

// The most rows and bytes of a block; a row with more bytes than a text may have is cut, and is a block by itself.
const ROWS = 4096, BYTES = 1 << 19, ROW_ROOM = TEXT_ROOM;
const HRP_ROOM = 96, MAX_SEGWIT_TEXT = C.BECH32_MAX_SEGWIT_TEXT, MAX_SEGWIT_PROGRAM = C.BECH32_MAX_SEGWIT_PROGRAM;
const MOST_BYTES = 2 ** 31 - 1, LARGEST = 2 ** 31 - 1;
// Room is made for EXPECTED bytes of results at most while there are fewer, and for SPARE more than earlier rows suggest.
const EXPECTED = 1 << 26, SPARE = 1 / 32;

const SIZE = 8, OFFSETS_32 = C.BECH32_OFFSETS_32;
// A column is eight sizes and a layout. Rows before the first of a block stand there where bits of a byte are theirs.
const COLUMN = 8 * SIZE + SIZE, BITS = 8;

const REGIONS = {
  column: COLUMN, bytes: BYTES, offsets: 4 * (ROWS + BITS + 1), validity: ROWS / BITS + 2, hrp: HRP_ROOM, given: ROWS,
  numbers: ROWS, versions: ROWS, hrpLengths: ROWS, madeOffsets: 4 * (ROWS + 1), made: MAX_SEGWIT_TEXT * ROWS, done: SIZE,
};
const MADE_ROOM = BigInt(REGIONS.made), OFFSETS_ROOM = BigInt(ROWS + 1);

const int32s = (it, region, count) => new Int32Array(it.bytes.buffer, it.at[region], count);

// ---- what is read

// A block of rows in the memory: how many they are, where the first is, and whether it is one that is cut.
const laid = (it, { count, skip = 0, length, bits = 0, isCut = false }) => {
  const rows = skip + count;
  it.putSizes('column', [it.at.bytes, length, it.at.offsets, 4 * (rows + 1), it.at.validity, bits, rows, 0]);
  it.view.setUint32(it.at.column + 8 * SIZE, OFFSETS_32, true);
  return { count, first: BigInt(skip), isCut };
};

const isNull = (row) => row === null || row === undefined;
const wrongRow = (row, what) => new TypeError(`a row is ${what} or null, and not ${typeof row}`);

// Puts rows one by one, by what puts one from a place on and tells its bytes, or -1 where there is no room for it.
const putEach = (it, rows, put, cut) => {
  const offsets = int32s(it, 'offsets', ROWS + 1);
  let count = 0, end = 0;
  for (; count < rows.length; count++) {
    const row = rows[count], size = isNull(row) ? 0 : put(it, row, end);
    if (size < 0) break;
    end += size;
    offsets[count + 1] = end;
  }
  if (count > 0) return { count, length: end };
  cut(rows[0]);
  offsets[1] = ROW_ROOM;
  return { count: 1, length: ROW_ROOM, isCut: true };
};

const encoder = new TextEncoder();

const putText = (it, row, end) => {
  if (typeof row !== 'string') throw wrongRow(row, 'a string');
  const from = it.at.bytes + end, room = it.bytes.subarray(from, from + Math.min(ROW_ROOM, BYTES - end));
  const { read, written } = encoder.encodeInto(row, room);
  return read === row.length ? written : -1;
};
const putOctets = (it, row, end) => {
  if (!(row instanceof Uint8Array)) throw wrongRow(row, 'a Uint8Array');
  if (row.length > Math.min(ROW_ROOM, BYTES - end)) return -1;
  it.bytes.set(row, it.at.bytes + end);
  return row.length;
};

// Texts of which each character is one byte are put as one text. None is where there are others.
const putJoined = (it, rows) => {
  const offsets = int32s(it, 'offsets', ROWS + 1);
  let all = '';
  for (let i = 0; i < rows.length; i++) {
    const row = rows[i];
    if (typeof row === 'string') {
      if (row.length > ROW_ROOM) return null;
      all += row;
    } else if (!isNull(row)) throw wrongRow(row, 'a string');
    offsets[i + 1] = all.length;
  }
  if (all.length > BYTES) return null;
  const { written } = encoder.encodeInto(all, it.part('bytes', BYTES));
  return written === all.length ? { count: rows.length, length: written } : null;
};

const putTexts = (it, rows) => putJoined(it, rows) ?? putEach(it, rows, putText, (row) => it.putText('bytes', row));
const putPrograms = (it, rows) => putEach(it, rows, putOctets, (row) => it.putBytes('bytes', row));

// The bits of rows, where one of them is null.
const putBits = (it, rows) => {
  if (!rows.includes(null) && !rows.includes(undefined)) return 0;
  const bits = it.part('validity', Math.ceil(rows.length / BITS)).fill(0);
  for (let i = 0; i < rows.length; i++) if (!isNull(rows[i])) bits[i >> 3] |= 1 << (i & 7);
  return bits.length;
};

const listOf = (rows, putBlock) => ({
  count: rows.length,
  put(it, at) {
    const part = rows.slice(at, at + ROWS), bits = putBits(it, part);
    int32s(it, 'offsets', 1)[0] = 0;
    return laid(it, { ...putBlock(it, part), bits });
  },
});

const isWide = (offsets) => offsets instanceof BigInt64Array;
// The halves of offsets of 64 bits, and the offset of a row of them.
const halvesOf = ({ buffer, byteOffset, length }) => new Int32Array(buffer, byteOffset, 2 * length);
const joined = (halves, i) => halves[2 * i + 1] * 2 ** 32 + (halves[2 * i] >>> 0);

// The function that reads an offset, which gives -1 for one that is not within `length` bytes.
const readerOf = (offsets, length) => {
  const within = (offset) => (offset >= 0 && offset <= length ? offset : -1);
  if (offsets instanceof Int32Array || offsets instanceof Uint32Array) return (i) => within(offsets[i]);
  if (!isWide(offsets)) throw new TypeError('the offsets are no Int32Array, Uint32Array or BigInt64Array');
  const halves = halvesOf(offsets);
  return (i) => within(joined(halves, i));
};

// The low halves of offsets of 64 bits less that of the first one, where all of them have its high half.
const lowHalves = (offsets) => {
  const halves = halvesOf(offsets), numbers = new Int32Array(offsets.length);
  for (let i = 0; i < numbers.length; i++) {
    if (halves[2 * i + 1] !== halves[1]) return null;
    numbers[i] = halves[2 * i] - halves[0];
  }
  return numbers;
};

// The offsets of `count` rows from one on, as numbers of 32 bits, which tell only how far apart these offsets are; null where
// these do not.
const offsetsOf = (offsets, from, count) => {
  const part = offsets.subarray(from, from + count + 1);
  if (isWide(part)) return lowHalves(part);
  return new Int32Array(part.buffer, part.byteOffset, part.length);
};

// Puts offsets that rise, as nearly all do, less the first of them: how many bytes the rows have, or -1 where the offsets fall
// or a row is too long.
const putRising = (offsets, put) => {
  const low = offsets[0], length = offsets.length;
  let before = 0, sign = 0;
  for (let i = 0; i < length; i++) {
    const offset = (offsets[i] - low) | 0, size = (offset - before) | 0;
    put[i] = offset;
    // Below zero where one of these is.
    sign |= size | (ROW_ROOM - size);
    before = offset;
  }
  return sign < 0 ? -1 : before;
};

const whole = (it, least, most, what) => {
  if (!Number.isSafeInteger(it) || it < least || it > most) throw new RangeError(`${what} is no integer from ${least} to ${most}`);
  return it;
};

// The rows of a column from one on that are a block, and the bytes that all of them lie in.
const blockFrom = (read, from, most) => {
  let low = -1, high = 0, count = 0;
  for (let start = read(from); count < most; count++) {
    const end = read(from + count + 1);
    if (start >= 0 && start <= end) {
      const first = low < 0 ? start : Math.min(low, start), last = Math.max(high, end);
      if (end - start > ROW_ROOM || last - first > BYTES) break;
      low = first;
      high = last;
    }
    start = end;
  }
  if (count > 0) return { low: Math.max(low, 0), high, count, isCut: false };
  return { low: read(from), high: read(from) + ROW_ROOM, count: 1, isCut: true };
};

// Puts the offsets of the rows from one on that are a block: -1 is one that does not lie in the bytes of the column.
const putOffsets = (read, { offsets, from, most }, put) => {
  const given = offsetsOf(offsets, from, most), size = given === null ? -1 : putRising(given, put), low = read(from);
  if (size >= 0 && size <= BYTES && low >= 0 && read(from + most) === low + size) return { low, high: low + size, count: most, isCut: false };
  const block = blockFrom(read, from, most);
  for (let i = 0; i <= block.count; i++) {
    const offset = read(from + i);
    put[i] = offset < 0 ? -1 : Math.max(-1, Math.min(offset - block.low, LARGEST));
  }
  if (block.isCut) put[1] = ROW_ROOM;
  return block;
};

// A column as Arrow lays it out. What stands in the memory is the same but for the bytes before the block.
const arrowOf = ({ bytes, offsets, validity = null, first = 0, count }) => {
  if (!(bytes instanceof Uint8Array)) throw new TypeError('the bytes are no Uint8Array');
  const read = readerOf(offsets, bytes.length), rows = Math.max(offsets.length - 1, 0);
  whole(first, 0, rows, 'the first row');
  const total = count === undefined ? rows - first : whole(count, 0, rows - first, 'the number of rows');
  if (validity !== null && !(validity instanceof Uint8Array)) throw new TypeError('the validity is no Uint8Array');
  if (validity !== null && validity.length * BITS < first + total) throw new RangeError('the validity has fewer bits than there are rows');
  return {
    count: total,
    put(it, at) {
      const from = first + at, skip = validity === null ? 0 : from % BITS, put = int32s(it, 'offsets', ROWS + BITS + 1).subarray(skip);
      const { low, high, count, isCut } = putOffsets(read, { offsets, from, most: Math.min(ROWS, total - at) }, put);
      it.putBytes('bytes', bytes.subarray(low, high));
      const bits = validity === null ? 0n : it.putBytes('validity', validity.subarray((from - skip) / BITS, Math.ceil((from + count) / BITS)));
      return laid(it, { count, skip, length: high - low, bits, isCut });
    },
  };
};

const columnOf = (given, putBlock) => {
  if (given === null || typeof given !== 'object' || given instanceof Uint8Array) {
    throw new TypeError('a column is a list of rows, or has bytes and offsets');
  }
  if ('offsets' in given) return arrowOf(given);
  return listOf(Array.isArray(given) ? given : [...given], putBlock);
};

// ---- what is made

const decoder = new TextDecoder();

/** Rows of bytes or of texts, as Arrow lays them out. A row without a result is null. */
class Rows {
  #isText;

  constructor({ offsets, bytes, validity, nullCount, isText }) {
    this.offsets = offsets;
    this.bytes = bytes;
    this.validity = validity;
    this.nullCount = nullCount;
    this.#isText = isText;
  }

  get length() {
    return this.offsets.length - 1;
  }

  #has(row) {
    return ((this.validity[row >> 3] >> (row & 7)) & 1) === 1;
  }

  /** A row by its number, a negative one from the end on; undefined where there is none. */
  at(index) {
    const i = Math.trunc(index) || 0, row = i < 0 ? this.length + i : i;
    if (row < 0 || row >= this.length) return undefined;
    if (!this.#has(row)) return null;
    const part = this.bytes.slice(this.offsets[row], this.offsets[row + 1]);
    return this.#isText ? decoder.decode(part) : part;
  }

  toArray() {
    return Array.from(this);
  }

  *[Symbol.iterator]() {
    for (let first = 0; first < this.length; first += ROWS) {
      const last = Math.min(first + ROWS, this.length), start = this.offsets[first];
      const part = this.bytes.slice(start, this.offsets[last]), whole = this.#isText ? decoder.decode(part) : part;
      for (let row = first; row < last; row++) {
        yield this.#has(row) ? whole.slice(this.offsets[row] - start, this.offsets[row + 1] - start) : null;
      }
    }
  }
}

// Gathers what is made of each block, in an array that is as large as the rows before let expect of all.
const gathering = (total, isText) => {
  const offsets = new Int32Array(total + 1);
  let bytes = new Uint8Array(), end = 0;

  const enlarge = (size, done) => {
    const expected = Math.ceil(size * (total / done) * (1 + SPARE));
    const more = new Uint8Array(Math.max(size, Math.min(expected, Math.max(2 * size, EXPECTED), MOST_BYTES)));
    more.set(bytes.subarray(0, end));
    bytes = more;
  };

  return {
    add(it, count, at) {
      const own = int32s(it, 'madeOffsets', count + 1), length = own[count];
      if (end + length > MOST_BYTES) throw new RangeError('the results have more than 2147483647 bytes: give some rows at a time');
      if (end + length > bytes.length) enlarge(end + length, at + count);
      for (let i = 1; i <= count; i++) offsets[at + i] = end + own[i];
      bytes.set(it.part('made', length), end);
      end += length;
    },
    rows(marked) {
      const isFull = bytes.length - end <= 4 * SPARE * end;
      return new Rows({ offsets, bytes: isFull ? bytes.subarray(0, end) : bytes.slice(0, end), ...marked, isText });
    },
  };
};

// The validity of rows with these numbers, and how many are null.
const markedBy = (it, numbers) => {
  const validity = new Uint8Array(Math.ceil(numbers.length / BITS)), p = (region) => it.pointer(region);
  let accepted = 0;
  for (let at = 0; at < numbers.length; at += ROWS) {
    const count = it.putBytes('numbers', numbers.subarray(at, at + ROWS));
    it.call('bech32_validity_of', p('numbers'), count, p('validity'), BigInt(REGIONS.validity), p('done'));
    validity.set(it.part('validity', Math.ceil(Number(count) / BITS)), at / BITS);
    accepted += it.size('done');
  }
  return { validity, nullCount: numbers.length - accepted };
};

// ---- the calls

// Whatever the rows are, a call returns 0: what is asked of it here is in order.
const started = (number) => {
  if (number !== 0) throw new Error(`a call for a column was refused with ${number}`);
};

const versionsOf = (given, count) => {
  const versions = Array.isArray(given) || ArrayBuffer.isView(given) ? given : [...given];
  if (versions.length !== count) throw new RangeError('there are not as many versions as programs');
  for (let i = 0; i < count; i++) whole(versions[i], 0, 31, 'a version');
  return Uint8Array.from(versions);
};

/**
 * The calls for columns of the module of `bech32_c`, which has an instance for them from the first call on. `testPart` throws
 * for what is no human-readable part.
 */
export const columnFunctions = (module, testPart = () => {}) => {
  let running = null;
  const instance = () => (running ??= new Instance(module, REGIONS));

  // Calls for each block; `tooLong` is the number of a row that is cut.
  const each = (column, numbers, tooLong, call) => {
    const it = instance();
    for (let at = 0; at < column.count;) {
      const block = column.put(it, at), count = BigInt(block.count);
      started(call(it, (region) => it.pointer(region), { ...block, count, at }));
      numbers.set(it.part('numbers', block.count), at);
      if (block.isCut && tooLong !== null && numbers[at] !== NULL_ROW) numbers[at] = tooLong;
      at += block.count;
    }
  };

  return {
    checkMany(checksum, texts) {
      if (checksum !== null && !Object.hasOwn(ALL_CHECKSUMS, checksum)) {
        throw new TypeError('the checksum is none of those that are known, and not null');
      }
      const by = checksum === null ? 0 : ALL_CHECKSUMS[checksum], column = columnOf(texts, putTexts);
      const numbers = new Uint8Array(column.count);
      each(column, numbers, TEXT_TOO_LONG, (it, p, { first, count }) =>
        it.call('bech32_check_many', by, p('column'), first, p('numbers'), count));
      return numbers;
    },
    decodeMany(texts, hrp = null) {
      if (hrp !== null && typeof hrp !== 'string') throw new TypeError('the human-readable part is no string');
      if (hrp === '') throw new RangeError('no address has an empty human-readable part');
      if (hrp !== null) testPart(hrp);
      const column = columnOf(texts, putTexts), it = instance(), part = it.putText('hrp', hrp ?? '').length;
      const [numbers, versions, hrpLengths] = Array.from({ length: 3 }, () => new Uint8Array(column.count));
      const programs = gathering(column.count, false);
      each(column, numbers, ADDRESS_TOO_LONG, (_, p, { first, count, at }) => {
        const number = it.call('bech32_segwit_decode_many', p('column'), first, p('hrp'), part, p('numbers'), count,
          p('versions'), count, p('hrpLengths'), count, p('madeOffsets'), OFFSETS_ROOM, p('made'), MADE_ROOM, p('done'));
        versions.set(it.part('versions', Number(count)), at);
        hrpLengths.set(it.part('hrpLengths', Number(count)), at);
        programs.add(it, Number(count), at);
        return number;
      });
      return { numbers, versions, hrpLengths, programs: programs.rows(markedBy(it, numbers)) };
    },
    encodeMany(hrp, versions, programs) {
      if (typeof hrp !== 'string') throw new TypeError('the human-readable part is no string');
      const column = columnOf(programs, putPrograms), given = versionsOf(versions, column.count);
      const it = instance(), part = it.putText('hrp', hrp).length, numbers = new Uint8Array(column.count);
      const texts = gathering(column.count, true);
      each(column, numbers, null, (_, p, { first, count, at }) => {
        const length = it.putBytes('given', given.subarray(at, at + Number(count)));
        const number = it.call('bech32_segwit_encode_many', p('hrp'), part, p('given'), length, p('column'), first, p('numbers'),
          count, p('madeOffsets'), OFFSETS_ROOM, p('made'), MADE_ROOM, p('done'));
        texts.add(it, Number(count), at);
        return number;
      });
      return { numbers, texts: texts.rows(markedBy(it, numbers)) };
    },
  };
};

// Of these a text alone is thrown otherwise, or never.
const OF_ROWS = { [C.BECH32_NOT_UTF8]: 'The text is not UTF-8.', [BAD_ROW]: 'The offsets of the row do not lie in the column.' };

/** The sentence of the number of a row; of 0, and of what is no row's, it is empty. */
export const message = (number) => OF_ROWS[number] ?? SENTENCES[number] ?? '';
