// All but codex32, without its module: `bech32-proved/bech32`. README.md is for users.
import { BAD_ROW, columnFunctions, message, NULL_ROW, OTHER_HRP } from './columns.js';
import { Refused, Stopped } from './library.js';
import { ALPHABET } from './reasons.js';
import { isLowered, it, module } from './started.js';

const { checkMany, ...ofAddresses } = columnFunctions(module, it.testPart);

export const { encode, decode, check, correct, nearest, nearEdits } = it;
export const segwit = { ...it.segwit, ...ofAddresses };
export { checkMany, message, BAD_ROW, NULL_ROW, OTHER_HRP };
export const { decodeStrict, decodeElements, encodeElements, toWords, fromWords } = it;
export const { descriptor } = it;
export const { liquid } = it;
export { ALPHABET, Refused, Stopped, isLowered };
