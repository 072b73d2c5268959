// What index.d.ts has, but codex32.
export type {
  AnyChecksum, Change, Checksum, Code, Column, Correction, Edit, MendedDescriptor, NearEdit, Rows, Suggestion,
} from './index.js';
export {
  ALPHABET, BAD_ROW, NULL_ROW, OTHER_HRP, Refused, Stopped, check, checkMany, correct, decode, decodeElements, decodeStrict,
  descriptor, encode, encodeElements, fromWords, isLowered, liquid, message, nearEdits, nearest, segwit, toWords,
} from './index.js';
