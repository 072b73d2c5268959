// One module of the library and its memory.
//
// The module's own memory lies below __heap_base: its constants and its stack. The memory above is the caller's. It is
// cut into regions, one for each argument, so that nothing a function writes to overlaps with anything else that it is
// given.

const ALIGNMENT = 16;
const aligned = (at) => Math.ceil(at / ALIGNMENT) * ALIGNMENT;

/** A module stopped in a call. No call of the library does: it is a fault of the engine or of the memory it gives. */
export class Stopped extends Error {
  constructor(name, cause) {
    super(`${name} stopped without an answer, and the module was started anew: ${cause}`, { cause });
    this.name = 'Stopped';
  }
}

const PAGE = 65536;

// Makes a memory as large as that, page by page of WebAssembly. Where addresses have 64 bits, a number of pages is a BigInt.
const enlarge = (memory, size) => {
  const pages = Math.ceil((size - memory.buffer.byteLength) / PAGE);
  if (pages <= 0) return;
  try {
    memory.grow(pages);
  } catch (cause) {
    if (!(cause instanceof TypeError)) throw cause;
    memory.grow(BigInt(pages));
  }
};

// The constants of a module just started: all between the first byte of its memory that is not zero and the last.
const constantsOf = (bytes, end) => {
  let from = 0, to = end;
  while (from < to && bytes[from] === 0) from++;
  while (from < to && bytes[to - 1] === 0) to--;
  return { from, bytes: bytes.slice(from, to) };
};

/** A running module. `sizes` has the size of each region by its name, and `at` then its place in the memory. */
export class Instance {
  #module;
  #sizes;
  #exports;
  #constants;

  constructor(module, sizes) {
    this.#module = module;
    this.#sizes = sizes;
    this.#start();
  }

  #start() {
    this.#exports = new WebAssembly.Instance(this.#module, {}).exports;
    this.lay(this.#sizes);
    this.#constants = constantsOf(this.bytes, this.#own());
  }

  // Where the module's own memory ends.
  #own() {
    return aligned(Number(this.#exports.__heap_base.value));
  }

  /** Cuts the memory into regions of these sizes in place of those before, and enlarges it where they need more. */
  lay(sizes) {
    const { memory } = this.#exports, at = {};
    let end = this.#own();
    for (const [name, size] of Object.entries(sizes)) {
      at[name] = end;
      end = aligned(end + size);
    }
    enlarge(memory, end);
    this.#sizes = sizes;
    this.at = at;
    this.bytes = new Uint8Array(memory.buffer);
    this.view = new DataView(memory.buffer);
  }

  /** How many arguments a function takes; undefined where the module has no function of that name. */
  arity(name) {
    return this.#exports[name]?.length;
  }

  /** Calls a function: pointers and sizes are BigInt, and the rest are numbers. */
  call(name, ...values) {
    try {
      return this.#exports[name](...values);
    } catch (cause) {
      this.bytes.fill(0);
      this.#start();
      throw new Stopped(name, cause);
    }
  }

  /** Leaves the memory as it was when the module started: arguments, answers and what the stack held are zeros. */
  wipe() {
    this.bytes.fill(0);
    this.bytes.set(this.#constants.bytes, this.#constants.from);
  }

  pointer(region) {
    return BigInt(this.at[region]);
  }

  /**
   * Puts a text into a region, as UTF-8, from a place on: its length in bytes, and whether there was room for all of it. The
   * text is a string, or a Uint8Array.
   */
  putText(region, text, from = 0) {
    const room = this.bytes.subarray(this.at[region] + from, this.at[region] + this.#sizes[region]);
    if (typeof text !== 'string') {
      const put = text.subarray(0, room.length);
      room.set(put);
      return { length: BigInt(put.length), isWhole: put.length === text.length };
    }
    const { read, written } = new TextEncoder().encodeInto(text, room);
    return { length: BigInt(written), isWhole: read === text.length };
  }

  /** Puts bytes into a region, as many as there is room for, and returns how many they are. */
  putBytes(region, bytes) {
    const put = bytes.subarray(0, this.#sizes[region]);
    this.bytes.set(put, this.at[region]);
    return BigInt(put.length);
  }

  putSizes(region, sizes) {
    sizes.forEach((size, i) => this.view.setBigUint64(this.at[region] + 8 * i, BigInt(size), true));
    return BigInt(sizes.length);
  }

  size(region, i = 0) {
    return Number(this.view.getBigUint64(this.at[region] + 8 * i, true));
  }

  number(region) {
    return this.view.getUint32(this.at[region], true);
  }

  /** The bytes of a region itself, as many from its front. */
  part(region, length) {
    return this.bytes.subarray(this.at[region], this.at[region] + length);
  }

  copy(region, length, from = 0) {
    const at = this.at[region] + from;
    return this.bytes.slice(at, at + length);
  }

  /** How many of JavaScript's characters the bytes at the front of a region are, which are UTF-8: of four bytes, two. */
  characters(region, length) {
    const units = (byte) => (byte >= 0xf0 ? 2 : Number((byte & 0xc0) !== 0x80));
    return this.part(region, length).reduce((sum, byte) => sum + units(byte), 0);
  }

  /** A text of ASCII characters in a region, of which it is the front or stands behind others. */
  text(region, length, from = 0) {
    const at = this.at[region] + from;
    return String.fromCharCode(...this.bytes.subarray(at, at + length));
  }
}

// An instance whose memory has grown beyond this is not kept: to wipe it would take as long as to start another.
const MOST_KEPT = 1 << 23;

/**
 * Makes what runs a call in an instance with regions of these sizes, of which nothing is left after the call: its memory is
 * then as it was when the module started. One instance serves all calls of a module, since it takes longer to start one than
 * to call most functions.
 */
export const runner = (module) => {
  let kept = null;
  return (sizes, call) => {
    const it = kept ?? new Instance(module, sizes);
    kept = null;
    it.lay(sizes);
    try {
      return call(it);
    } finally {
      it.wipe();
      if (it.bytes.length <= MOST_KEPT) kept = it;
    }
  };
};
