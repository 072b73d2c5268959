import type { Code } from './refusals.js';

/** Bech32 is that of BIP-173, Bech32m that of BIP-350. */
export type Checksum = 'bech32' | 'bech32m';

/**
 * The same for texts of up to 7,089 characters, as invoices, nostr and age have them; a text of up to 1,023 has the same checksum
 * by both. Above that nothing is promised of wrong characters, and no text is mended: what a wrong character leaves 1,200
 * characters before the end, one 177 before it leaves too.
 */
export type AnyChecksum = Checksum | 'longBech32' | 'longBech32m';

export type { Code };

/** A refusal. Its `message` is a sentence with the figures and the character at fault. */
export class Refused extends Error {
  readonly code: Code;
  /** The number of the refusal in `include/bech32.h` and `include/codex32.h`. */
  readonly number: number;
  /** Where the character at fault stands in the text or the human-readable part, from 0 on; null where it is no one. */
  readonly place: number | null;
  /** Which of several codex32 strings is at fault, from 0 on; null where it is no one, or where there is one alone. */
  readonly which: number | null;
}

/** A module stopped without an answer and was started anew. No call does that unless the engine has a fault. */
export class Stopped extends Error {}

/** The characters of the elements 0 to 31, in lower case. */
export const ALPHABET: string;

/** Whether the modules were lowered to 32-bit memory, a step that is not proved. */
export const isLowered: boolean;

/**
 * A character that is to be changed: `from` stands at `place` of the text, from 0 on, and `to` is right. `from` is `?` of one
 * that cannot be read.
 */
export interface Change { readonly place: number; readonly from: string; readonly to: string }

/**
 * A corrected text with its changes, none where the text was valid. It has the case of the text given: upper case where that
 * has upper-case letters and no lower-case ones, else lower case. It is a guess at what was meant.
 */
export interface Correction { readonly text: string; readonly changes: readonly Change[] }

/** The text of bytes under a human-readable part, in lower case. Throws `Refused`. */
export function encode(checksum: AnyChecksum, hrp: string, bytes: Uint8Array): string;

/**
 * A text that Bech32m or Bech32 accepts. Bits behind the last whole byte are dropped: what identifies something is decoded by
 * `decodeStrict`, which accepts one spelling of it. Throws `Refused`.
 */
export function decode(text: string): { checksum: Checksum; hrp: string; bytes: Uint8Array };

/**
 * A text that a checksum accepts, and that is, in its case, the only one by it of its human-readable part and its bytes:
 * `encode` writes it of them, in lower case. Bits behind the last whole byte that are more than four, or not all zero, are
 * refused. Decode so what identifies something, as an account or a key: else it has several spellings. Throws `Refused`.
 */
export function decodeStrict(checksum: AnyChecksum, text: string): { hrp: string; bytes: Uint8Array };

/**
 * The elements of a text that a checksum accepts, 0 to 31 each, without those of the checksum. This reads what is not bytes
 * alone, as an address of silent payments (BIP-352), whose first element is a version, or an invoice (BOLT 11). Throws
 * `Refused`.
 */
export function decodeElements(checksum: AnyChecksum, text: string): { hrp: string; elements: Uint8Array };

/**
 * The text of elements, 0 to 31 each, in lower case. The elements of bytes are their bits, five at a time, the highest first,
 * with zeros behind the last. Throws `Refused`, with the `place` of the first element above 31.
 */
export function encodeElements(checksum: AnyChecksum, hrp: string, elements: Uint8Array): string;

/**
 * The elements of bytes, as `encodeElements` takes them: their bits, five at a time, the highest first, with zeros after the last.
 * Any number of bytes is taken. It has the name that other packages give it.
 */
export function toWords(bytes: Uint8Array): Uint8Array;

/**
 * The bytes of elements, as `decodeElements` returns them, of any number: a Uint8Array, or a list of numbers. Bits after the
 * last whole byte are refused if they are more than four, or not all zero. Throws `Refused`, with the `place` of the element.
 */
export function fromWords(elements: Uint8Array | Iterable<number>): Uint8Array;

/** The parts of a text that a checksum accepts, without the checksum itself. Throws `Refused`. */
export function check(checksum: AnyChecksum, text: string): { hrp: string; data: string };

/**
 * The one correction of a text, where twice the wrong characters, with those that are known to be wrong, are three at most;
 * null where there is none. Known to be wrong are the characters at `places`, from 0 on, and each `?` behind the last `1`, which
 * cannot be read. Only the data part is corrected. Throws `Refused` where more than the checksum is wrong.
 */
export function correct(checksum: Checksum, text: string, places?: Iterable<number>): Correction | null;

/**
 * All texts that the checksum accepts and that differ from this one in at most `errors` characters of the data part (0 to
 * 2; 2 where it is left out) beside those that are known to be wrong, as of `correct`; a right text is the first of its own.
 * Texts of at most 89 characters with two wrong ones and none known have one at most, the right one. No list where more than
 * three are known to be wrong. In the library, two errors and three places take 0.5 ms at 90 characters and 7 ms at 400,
 * where 2,300 texts are near; texts that fill more than 16 KB are searched for twice. Throws `Refused`, and `RangeError` where
 * 16 MB do not suffice, as for some 10,000 texts.
 */
export function nearest(
  checksum: Checksum, text: string, places?: Iterable<number>, errors?: 0 | 1 | 2,
): readonly Correction[];

/**
 * What is done to a mistyped text: two neighbours are `swapped`, a character is left out (`leftOut`) or put in (`putIn`).
 * `place` is from 0 on that of the first of the two, of the character that is left out, and of the one that is put in where
 * it then stands; `characters` are these one or two in the case of the text, those that are swapped as they were put in.
 */
export interface Edit {
  readonly kind: 'swapped' | 'leftOut' | 'putIn';
  readonly place: number;
  readonly characters: string;
}

/** A text that one edit makes of another, in the case of that one. It is a guess at what was meant. */
export interface NearEdit { readonly text: string; readonly edit: Edit }

/**
 * All other texts that the checksum accepts and that come from this one by leaving out one character of the data part, by
 * putting one in, or by swapping two neighbours: each once, swaps first, then what leaves a character out, and of each kind
 * that with the fewest characters behind it. Of a run of the same the last character is left out, and one is put in behind
 * it. By Bech32 a text that ends in `p` is accepted with any number of `q` before that as well: where the text that is found
 * ends in `p`, an edit of its last two characters says little. The text may have any number of characters behind its
 * separator. Throws `Refused`, and `RangeError` where 16 MB do not suffice.
 */
export function nearEdits(checksum: Checksum, text: string): readonly NearEdit[];

/**
 * An address that may have been meant, in the case of the text that was typed, and what makes it of that: `changes` of
 * characters, in rising order, each `?` with them, or one `edit`; neither where the text is an address as it was typed.
 */
export interface Suggestion { readonly text: string; readonly changes: readonly Change[]; readonly edit: Edit | null }

/**
 * A column as Apache Arrow lays it out: the bytes of all rows one behind another, and offsets, one more than rows; row i has the
 * bytes from offset i up to offset i + 1. Bit i % 8 of byte i / 8 of `validity`, the lowest first, is 0 where row i is null;
 * where there is none, no row is null. `first` and `count` are the rows that are meant; left out, all are.
 */
export interface Column {
  readonly bytes: Uint8Array;
  readonly offsets: Int32Array | Uint32Array | BigInt64Array;
  readonly validity?: Uint8Array | null;
  readonly first?: number;
  readonly count?: number;
}

/** The rows of a result: a column, of which a row is null where its number is not 0. */
export interface Rows<Row> extends Column, Iterable<Row | null> {
  readonly offsets: Int32Array;
  readonly validity: Uint8Array;
  readonly nullCount: number;
  readonly length: number;
  /** A row by its place, from 0 on, or from the end on where that is negative; undefined where there is none. */
  at(index: number): Row | null | undefined;
  toArray(): (Row | null)[];
}

/** The row is null. */
export const NULL_ROW: 1;
/** The offsets of the row do not lie in the column. */
export const BAD_ROW: 4;
/** The address has another human-readable part than is wanted. */
export const OTHER_HRP: 49;

/**
 * Tests each row by a checksum, or where that is null by Bech32m and Bech32, and returns its number: 0 where the text is accepted,
 * NULL_ROW, BAD_ROW, or that of a refusal. No row throws; what is no column, and a row that is no string, is a `TypeError`.
 */
export function checkMany(checksum: AnyChecksum | null, texts: Iterable<string | null | undefined> | Column): Uint8Array;

/** The sentence of the number of a row; of 0 it is empty. */
export function message(number: number): string;

export const segwit: {
  /**
   * Did you mean? The addresses of the network of a human-readable part that someone may have meant who typed a text, in which
   * each `?` is a character that cannot be read. Tried are the texts with up to two other characters, as many as are unlikely to
   * be right by chance beside what cannot be read, and if there is no `?`, those that one edit makes. Of texts that are no
   * mistyped addresses, at most one in 100 gets an answer. They are of forms in use (version 0 with 20 or 32 bytes, version 1
   * with 32), but for the text itself, which is listed if it is an address of the network. It is a guess: show it, and let people
   * compare it with the source before it is paid to. Throws `Refused`.
   */
  suggest(text: string, hrp: string): readonly Suggestion[];
  /** The address of a witness version, from 0 to 16, and a program. Throws `Refused`. */
  encode(hrp: string, version: number, program: Uint8Array): string;
  /**
   * The parts of an address, of the network whose human-readable part is named, in either case: another address is refused with
   * OTHER_HRP. If it is left out or null, any part is accepted, and yours to compare. Throws `Refused`: of `hrp` first, if that is
   * no human-readable part, then of the text.
   */
  decode(text: string, hrp?: string | null): { hrp: string; version: number; program: Uint8Array };
  /**
   * Decodes a column of addresses: of each row its number, as of `checkMany`, its witness version, the length of the human-readable
   * part, with which it begins, and its program. Name the human-readable part of your network: another address then has the number
   * OTHER_HRP. Where it is null any is accepted, and yours to compare. Throws `Refused` for a human-readable part that is none.
   */
  decodeMany(texts: Iterable<string | null | undefined> | Column, hrp?: string | null): {
    numbers: Uint8Array; versions: Uint8Array; hrpLengths: Uint8Array; programs: Rows<Uint8Array>;
  };
  /**
   * Encodes addresses of one human-readable part, in lower case: a version, an element, and a program for each. Throws
   * `RangeError` where there are not as many versions as programs.
   */
  encodeMany(hrp: string, versions: Iterable<number>, programs: Iterable<Uint8Array | null | undefined> | Column): {
    numbers: Uint8Array; texts: Rows<string>;
  };
};

/**
 * A text with a right checksum, and what is done to a mistyped one to make it: two neighbours are `swapped`, a character is left
 * out (`leftOut`) or put in (`putIn`), or one is `changed`. `places` are one, or two that are swapped, from 0 on, in the
 * mistyped text, but of `putIn` in the new one; `from` is what stands there before, nothing of `putIn`, and `to` what stands
 * there then, nothing of `leftOut`.
 */
export interface MendedDescriptor {
  readonly text: string;
  readonly kind: 'swapped' | 'leftOut' | 'putIn' | 'changed';
  readonly places: readonly number[];
  readonly from: string;
  readonly to: string;
}

/**
 * Output descriptors (BIP-380). What one says is not read. It may hold private keys: the memory of the module is wiped after each
 * call, and the strings are yours.
 */
export const descriptor: {
  /** The checksum of a descriptor without one, eight characters: `#` and these stand behind it. Throws `Refused`. */
  checksum(text: string): string;
  /** Tests the checksum of a descriptor, and returns the descriptor without it. Throws `Refused`. */
  check(text: string): string;
  /**
   * The other texts with a right checksum that one mistake makes of this one: up to `changed` characters (0 or 1; 1 where it is
   * left out) are changed, two neighbours swapped, one left out, or one put in; in that order, and of each kind those with the
   * lower places first. Throws `Refused`, and `RangeError` where 256 MB do not suffice.
   */
  mend(text: string, changed?: 0 | 1): readonly MendedDescriptor[];
  /**
   * The texts with a right checksum that come from this one by two of its characters changed, in the order of their second
   * places. Try `mend` first: where two characters are wrong, it takes about a 15th of the time at 30 characters and a 150th at
   * 1,400, and less memory. A text has at most 1,400 characters, so that of 100 that are no mistyped descriptors at most one is
   * expected to be answered with any. Throws `Refused`, and `RangeError` where 256 MB do not suffice.
   */
  mendTwo(text: string): readonly MendedDescriptor[];
};

/** Confidential addresses of Liquid, by the checksum Blech32. Only version 0 is read and written. */
export const liquid: {
  /**
   * The address of a witness version, a blinding key of 33 bytes and a program. That the key is a point of the curve is not
   * tested. Throws `Refused`, and `RangeError` of a key of another length.
   */
  encode(hrp: string, version: number, key: Uint8Array, program: Uint8Array): string;
  /**
   * The parts of an address. Any human-readable part is accepted: compare it with that of your network (`lq`). Throws
   * `Refused`.
   */
  decode(text: string): { hrp: string; version: number; key: Uint8Array; program: Uint8Array };
  /**
   * The one correction of a text, where twice the wrong characters, with those that are known to be wrong, as of `correct` for
   * other texts, are six at most; null where there is none. It need not be an address: decode it. Throws `Refused`.
   */
  correct(text: string, places?: Iterable<number>): Correction | null;
  /**
   * All texts that Blech32 accepts and that differ from this one in at most `errors` characters of the data part, 0 to 3,
   * beside those that are known to be wrong, of which there may be six. Twice `errors`, with their number, may be at most
   * seven. Where it is at most six, there is one text at most: so many are looked for where `errors` is left out, 3 beside
   * none that are known to be wrong, 2 beside one or two, 1 beside three or four, and none beside five or six. Throws
   * `Refused`, and `RangeError` of more errors.
   */
  nearest(text: string, places?: Iterable<number>, errors?: 0 | 1 | 2 | 3): readonly Correction[];
};

/**
 * A text that is a secret: a string, or its characters as a Uint8Array, which can be wiped by `fill(0)`. Of a text that is
 * given as a Uint8Array a refusal has a general sentence, and shows no character.
 */
export type SecretText = string | Uint8Array;

/** What a text that is a secret is returned as: a string, or with `into: Uint8Array` its characters as a Uint8Array. */
export interface AsString { readonly into?: StringConstructor }
export interface AsBytes { readonly into: Uint8ArrayConstructor }

/**
 * `random` are bytes for a test, one for each character that is drawn, in place of those of `crypto.getRandomValues`. A
 * secret that is shared by bytes that others know is no secret.
 */
export interface HowString extends AsString { readonly random?: Uint8Array }
export interface HowBytes extends AsBytes { readonly random?: Uint8Array }

export const codex32: {
  /**
   * Splits a secret of 16 to 44 bytes, or of 63 or 64, into `count` shares, from the threshold to 31: any `threshold` of them,
   * 2 to 9, give it to `recover`, and fewer say nothing of it. The shares are in lower case, at the first indices of
   * `acdefghjklmnpqrtuvwxyz023456789`. The characters of those before the `threshold`-th are the lowest five bits of random
   * bytes of `crypto.getRandomValues`, and the others are derived from these and the secret's own string; where that has no
   * random bytes, what it throws is thrown, and there is no share. The identifier, four characters of the alphabet, is the
   * same in all shares: it is drawn at random if it is left out or null, which the standard leaves free. Give each split a
   * new one. Shares of two splits of one secret with the same identifier are taken for one set, and as many of them as the
   * threshold recover other bytes, without an error. To get more shares later, derive them from enough shares (`derive`).
   * Throws `Refused`.
   */
  split(
    secret: Uint8Array, threshold: number, count: number, identifier?: string | null, options?: HowString,
  ): string[];
  split(
    secret: Uint8Array, threshold: number, count: number, identifier: string | null | undefined, options: HowBytes,
  ): Uint8Array[];
  /**
   * The bytes of the secret of shares, as many as the threshold at least. All of them are tested where there are more; where
   * there are not, a share of another secret gives other bytes, unnoticed. Throws `Refused`, with `which` for the string at
   * fault, and `RangeError` where there are more than 32.
   */
  recover(texts: Iterable<SecretText>): Uint8Array;
  /** The parts of a codex32 string of 48 to 93 characters, in its case. Throws `Refused`. */
  parse(text: string): { threshold: number; identifier: string; shareIndex: string; payload: string };
  /**
   * The nearest string to a damaged one, in which each `?` is a character that cannot be read; null where there is
   * none. Twice the wrong characters, with the unreadable ones, are eight at most. Neither threshold nor share index is
   * tested. The answer has the case of the text given. Throws `Refused`.
   */
  propose(text: string): Correction | null;
  /** Like `propose`, for a long string of 125 to 127 characters. */
  proposeLong(text: string): Correction | null;
  /**
   * A share, or the secret at the share index `s`, of 48 to 93 characters or of 125 to 127: its threshold, 0 or from 2
   * to 9, its identifier and share index in lower case, and the bytes of its payload, without up to four bits behind the
   * last whole one. Throws `Refused`.
   */
  share(text: SecretText): { threshold: number; identifier: string; shareIndex: string; bytes: Uint8Array };
  /**
   * The string of 16 to 44 bytes, or the long one of 63 or 64, in lower case. The identifier is four characters of the
   * alphabet, and the share index one of them, `s` where the threshold is 0. The bits left over are zero. A secret is shared by
   * `split`. Throws `Refused`.
   */
  encode(threshold: number, identifier: string, shareIndex: string, bytes: Uint8Array, options?: AsString): string;
  encode(threshold: number, identifier: string, shareIndex: string, bytes: Uint8Array, options: AsBytes): Uint8Array;
  /**
   * The string of the characters of a payload, in lower case, with a header as of `encode`. They are of the alphabet, in
   * one case, and as many as 16 to 44 bytes have, from 26 to 71, or as 63 or 64 have, 101 or 103: at most four bits are
   * left over, whatever they are. Throws `Refused`, with a `place` in the payload.
   */
  encodePayload(
    threshold: number, identifier: string, shareIndex: string, payload: SecretText, options?: AsString,
  ): string;
  encodePayload(
    threshold: number, identifier: string, shareIndex: string, payload: SecretText, options: AsBytes,
  ): Uint8Array;
  /**
   * The string at a share index, from others of its set, as many as the threshold at least; the threshold, identifier and
   * length of all are the same, and each has another share index. All of them are tested where there are more. At `s` it is
   * the secret's own. Throws `Refused`, with `which` for the string at fault, and `RangeError` where there are more than 32.
   */
  derive(texts: Iterable<SecretText>, shareIndex: string, options?: AsString): string;
  derive(texts: Iterable<SecretText>, shareIndex: string, options: AsBytes): Uint8Array;
};
