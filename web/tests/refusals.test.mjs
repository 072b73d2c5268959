// Refusals: a code, a sentence, and the place of the character at fault.
import test from 'node:test';
import assert from 'node:assert/strict';
import fs from 'node:fs';
import { Refused, check, codex32, correct, decode, decodeElements, decodeStrict, descriptor, encode, encodeElements, fromWords, liquid, segwit } from '../out/package/index.js';
import { ALPHABET } from './reference.mjs';
import { blechText } from './right-texts.mjs';

const refusal = (call) => {
  try {
    call();
  } catch (error) {
    assert.ok(error instanceof Refused, String(error));
    assert.ok(error instanceof Error && error.name === 'Refused');
    return [error.code, error.place, error.message, ...(error.which === null ? [] : [error.which])];
  }
  return assert.fail('nothing was refused');
};

// Two of three shares of BIP-93, the long string of BIP-93, and strings made here.
const A = 'MS12NAMEA320ZYXWVUTSRQPNMLKJHGFEDCAXRPP870HKKQRM', C = 'MS12NAMECACDEFGHJKLMNPQRSTUVWXYZ023FTR2GDZMPY6PN';
const LONG_STRING = 'ms100c8vsm32zxfguhpchtlupzry9x8gf2tvdw0s3jn54khce6mua7lqpzygsfjd6an074rxvcemlh8wu3tk925acdefghjklmnpqrstuvwxy06fhpv80undvarhrak';
const made = (threshold, identifier, shareIndex, length = 16) => codex32.encode(threshold, identifier, shareIndex, new Uint8Array(length).fill(7));
const madeOf = (payload, header = [2, 'test', 'a']) => codex32.encodePayload(...header, payload);

const octets = (text) => new TextEncoder().encode(text);
const split = (length, threshold, count, identifier = 'test', options = {}) => codex32.split(new Uint8Array(length).fill(7), threshold, count, identifier, options);

// A string whose payload holds no whole bytes.
const ODD = 'ms14lvh96q5zxeuujvzg58w59yc7s38yyfhkh8q0nuzggke5jv9s';

const LETTERS = 'letters and digits may, but not 1, b, i and o.';
const LONG = 'q'.repeat(1017);

const CASES = [
  [() => decode(''), 'NO_SEPARATOR', null, 'There is no separator “1” in the text.'],
  [() => decode('qpzry'), 'NO_SEPARATOR', null, 'There is no separator “1” in the text.'],
  [() => decode('1qqqqqq'), 'HRP_EMPTY', 0, 'Nothing stands before the separator “1”: the human-readable part is missing.'],
  [() => decode(`${'x'.repeat(84)}1qqqqqq`), 'HRP_TOO_LONG', 83, 'The human-readable part, before the last “1”, has 84 characters; it has at most 83.'],
  [() => decode('aé1qqqqqq'), 'HRP_NOT_ASCII', 1, 'Character 2, U+00E9, is not ASCII, and stands in the human-readable part, before the last “1”.'],
  [() => decode('a b1qqqqqq'), 'HRP_INVALID', 1, 'Character 2, a space (U+0020), may not stand in the human-readable part, before the last “1”.'],
  [() => decode('a12uelb5l'), 'INVALID_CHARACTER', 6, `Character 7, “b”, may not stand behind the last “1”: ${LETTERS}`],
  [() => decode('abc'), 'INVALID_CHARACTER', 1, `Character 2, “b”, may not stand here, and no separator “1” stands before it: ${LETTERS}`],
  [() => decode('A12uel5l'), 'MIXED_CASE', 3, 'Character 4, “u”, is a lower-case letter, and an upper-case one stands before it: all letters have one case.'],
  [() => decode('a12Uel5l'), 'MIXED_CASE', 3, 'Character 4, “U”, is an upper-case letter, and a lower-case one stands before it: all letters have one case.'],
  [() => decode(`a1${LONG}qqqqq`), 'TEXT_TOO_LONG', 1023, 'The text has 1,024 characters; a text has at most 1,023.'],
  [() => decode('a1qqqqq'), 'NO_CHECKSUM', 1, '5 characters stand behind the last “1”; the checksum alone has six.'],
  [() => decode('a1q'), 'NO_CHECKSUM', 1, 'One character stands behind the last “1”; the checksum alone has six.'],
  [() => decode('a1'), 'NO_CHECKSUM', 1, 'No character stands behind the last “1”; the checksum alone has six.'],
  [() => decode('a12uel5q'), 'WRONG_CHECKSUM', null, 'The checksum is wrong.'],
  [() => check('bech32m', 'a12uel5l'), 'WRONG_CHECKSUM', null, 'The Bech32m checksum is wrong.'],
  [() => correct('bech32', 'a12uelb'), 'INVALID_CHARACTER', 6, `Character 7, “b”, may not stand behind the last “1”: ${LETTERS}`],
  [() => encode('bech32', '', new Uint8Array()), 'HRP_EMPTY', 0, 'Nothing stands before the separator “1”: the human-readable part is missing.'],
  [() => encode('bech32', 'aB', new Uint8Array()), 'HRP_MIXED_CASE', 1, 'Character 2, “B”, is an upper-case letter, and a lower-case one stands before it: all letters have one case.'],
  [() => encode('bech32', 'a', new Uint8Array(635)), 'ENCODED_TOO_LONG', null, 'The text would have 1,024 characters; a text has at most 1,023.'],
  [() => encode('bech32', 'a', new Uint8Array(1 << 20)), 'ENCODED_TOO_LONG', null, 'The text would have 1,677,730 characters; a text has at most 1,023.'],
  [() => encode('longBech32', 'a', new Uint8Array(4426)), 'ENCODED_TOO_LONG', null, 'The text would have 7,090 characters; a text has at most 7,089.'],
  [() => encodeElements('bech32', 'a', new Uint8Array(1016)), 'ENCODED_TOO_LONG', null, 'The text would have 1,024 characters; a text has at most 1,023.'],
  [() => encodeElements('bech32m', 'a', Uint8Array.of(0, 31, 40, 33)), 'BAD_ELEMENT', 2, 'The element at the place 2 is 40; elements are from 0 to 31.'],
  [() => encodeElements('bech32', '', Uint8Array.of(32)), 'HRP_EMPTY', 0, 'Nothing stands before the separator “1”: the human-readable part is missing.'],
  [() => decodeStrict('bech32', 'a1qpamnt9j'), 'PADDING_NOT_ZERO', 3, 'Character 4, “p”, the last one before the checksum, has bits behind the last whole byte that are not zero.'],
  [() => decodeStrict('bech32', encodeElements('bech32', 'a', new Uint8Array(3))), 'PADDING_TOO_LONG', 4, 'Character 5, “q”, the last one before the checksum, is one too many: 7 bits stand behind the last whole byte, and at most four may.'],
  [() => decodeStrict('bech32m', 'a1qqqd87cq'), 'WRONG_CHECKSUM', null, 'The Bech32m checksum is wrong.'],
  [() => check('longBech32', `a1${'q'.repeat(7088)}`), 'TEXT_TOO_LONG', 7089, 'The text has 7,090 characters; a text has at most 7,089.'],
  [() => decodeElements('longBech32m', `a1${'q'.repeat(7087)}`), 'WRONG_CHECKSUM', null, 'The Bech32m checksum is wrong.'],
  [() => segwit.decode(`bc1${'q'.repeat(88)}`), 'ADDRESS_TOO_LONG', 90, 'The text has 91 characters; an address has at most 90.'],
  [() => segwit.decode(`${'é'.repeat(50)}1qqqqqq`), 'ADDRESS_TOO_LONG', 45, 'The text has 107 bytes; an address has at most 90.'],
  [() => segwit.decode('bc1'), 'NO_DATA', 2, 'No witness version stands between the last “1” and the checksum.'],
  [() => segwit.decode(encode('bech32m', 'c', new Uint8Array())), 'NO_DATA', 1, 'No witness version stands between the last “1” and the checksum.'],
  [() => segwit.decode('BC130XLXVLHEMJA6C4DQV22UAPCTQUPFHLXM9H8Z3K2E72Q4K9HCZ7VQ7ZWS8R'), 'BAD_VERSION', 3, 'Character 4, “3”, is the witness version 17; versions are from 0 to 16.'],
  [() => segwit.decode('bc1qw508d6qejxtdg4y5r3zarvary0c5xw7kv8f3t5'), 'WRONG_CHECKSUM', null, 'The checksum is wrong: an address of version 0 has a Bech32 checksum.'],
  [() => segwit.decode('bc1p0xlxvlhemja6c4dqv22uapctqupfhlxm9h8z3k2e72q4k9hcz7vqh2y7hd'), 'WRONG_CHECKSUM', null, 'The checksum is wrong: an address of version 1 has a Bech32m checksum.'],
  [() => segwit.decode('bc1p0xlxvlhemja6c4dqv22uapctqupfhlxm9h8z3k2e72q4k9hcz7v07qwwzcrf'), 'PADDING_TOO_LONG', 57, 'Character 58, “q”, the last one before the checksum, is one too many: 6 bits stand behind the last whole byte of the program, and at most four may.'],
  [() => segwit.decode('tb1p0xlxvlhemja6c4dqv22uapctqupfhlxm9h8z3k2e72q4k9hcz7vpggkg4j'), 'PADDING_NOT_ZERO', 55, 'Character 56, “p”, the last one before the checksum, has bits behind the last whole byte of the program that are not zero.'],
  [() => segwit.decode('bc1pw5dgrnzv'), 'PROGRAM_TOO_SHORT', null, 'The program has 1 byte; it has at least 2.'],
  [() => segwit.decode('bc1p0xlxvlhemja6c4dqv22uapctqupfhlxm9h8z3k2e72q4k9hcz7v8n0nx0muaewav253zgeav'), 'PROGRAM_TOO_LONG', null, 'The program has 41 bytes; it has at most 40.'],
  [() => segwit.decode('BC1QR508D6QEJXTDG4Y5R3ZARVARYV98GJ9P'), 'PROGRAM_NOT_V0', null, 'The program has 16 bytes; in version 0 it has 20 or 32.'],
  [() => segwit.decode('BC1QW508D6QEJXTDG4Y5R3ZARVARY0C5XW7KV8F3T4', 'tb'), 'OTHER_HRP', null, 'The human-readable part is “BC”, and “tb” is wanted.'],
  [() => segwit.decode('BC1QW508D6QEJXTDG4Y5R3ZARVARY0C5XW7KV8F3T5', 'tb'), 'WRONG_CHECKSUM', null, 'The checksum is wrong: an address of version 0 has a Bech32 checksum.'],
  [() => segwit.decode('bc1q', ''), 'HRP_EMPTY', 0, 'Nothing stands before the separator “1”: the human-readable part is missing.'],
  [() => segwit.decode('bc1q', 'tB'), 'HRP_MIXED_CASE', 1, 'Character 2, “B”, is an upper-case letter, and a lower-case one stands before it: all letters have one case.'],
  [() => fromWords([0, 31, 40, 33]), 'BAD_ELEMENT', 2, 'The element at the place 2 is 40; elements are from 0 to 31.'],
  [() => fromWords([...Array(7040).fill(0), 0, 33]), 'BAD_ELEMENT', 7041, 'The element at the place 7041 is 33; elements are from 0 to 31.'],
  [() => fromWords([0]), 'PADDING_TOO_LONG', 0, 'The last element is one too many: 5 bits follow the last whole byte, and at most four may.'],
  [() => fromWords(new Uint8Array(7043)), 'PADDING_TOO_LONG', 7042, 'The last element is one too many: 7 bits follow the last whole byte, and at most four may.'],
  [() => fromWords(Uint8Array.of(31, 31)), 'PADDING_NOT_ZERO', 1, 'The last element has bits after the last whole byte that are not zero.'],
  [() => segwit.encode('bc', 17, new Uint8Array(2)), 'ENCODED_BAD_VERSION', null, 'The witness version is 17; versions are from 0 to 16.'],
  [() => segwit.encode('bc', 1, new Uint8Array(1)), 'PROGRAM_TOO_SHORT', null, 'The program has 1 byte; it has at least 2.'],
  [() => segwit.encode('bc', 1, new Uint8Array(5000)), 'PROGRAM_TOO_LONG', null, 'The program has 5,000 bytes; it has at most 40.'],
  [() => segwit.encode('bc', 0, new Uint8Array(21)), 'PROGRAM_NOT_V0', null, 'The program has 21 bytes; in version 0 it has 20 or 32.'],
  [() => segwit.encode('x'.repeat(83), 1, new Uint8Array(2)), 'ENCODED_ADDRESS_TOO_LONG', null, 'The address would have 95 characters; an address has at most 90.'],
  [() => codex32.parse('mt10testsxxxxxxxxxxxxxxxxxxxxxxxxxx4nzvca9cmczlw'), 'NOT_MS', 1, 'The text begins with “mt1”; a codex32 string begins with “ms1”.'],
  [() => codex32.parse('ms10testsxxxxxxxxxxxxxxxxxxxxxxxxxx4nzvca9cmczl'), 'BAD_LENGTH', null, 'The text has 47 characters; a codex32 string has from 48 to 93.'],
  [() => codex32.parse(`ms1${'q'.repeat(122)}`), 'BAD_LENGTH', 93, 'The text has 125 characters; a codex32 string has from 48 to 93. The long codex32 strings, of 125 to 127 characters, are not read here.'],
  [() => codex32.parse('ms10testsxxxxxxxxxxxxxxxxxxxxxxxxxx4nzvca9cmczlq'), 'WRONG_CHECKSUM', null, 'The checksum is wrong.'],
  [() => codex32.parse('ms1qtestsxxxxxxxxxxxxxxxxxxxxxxxxxxq68ksv56lmaq5'), 'BAD_THRESHOLD', 3, 'Character 4, “q”, is no threshold, which is 0 or a digit from 2 to 9.'],
  [() => codex32.parse('ms10testaxxxxxxxxxxxxxxxxxxxxxxxxxxzd568kp774rau'), 'BAD_SHARE_INDEX', 8, 'Character 9, “a”, is no share index of the threshold 0, which is s.'],
  [() => codex32.propose('ms10tests??b'), 'INVALID_CHARACTER', 11, `Character 12, “b”, may not stand behind the last “1”: ${LETTERS}`],
  [() => codex32.propose('ms?'), 'INVALID_CHARACTER', 2, `Character 3, “?”, may not stand here, and no separator “1” stands before it: ${LETTERS}`],
  [() => codex32.share(`ms1${'q'.repeat(97)}`), 'BAD_LENGTH', null, 'The text has 100 characters; a codex32 string has from 48 to 93, or from 125 to 127.'],
  [() => codex32.share(`ms1${'q'.repeat(125)}`), 'BAD_LENGTH', 127, 'The text has 128 characters; a codex32 string has from 48 to 93, or from 125 to 127.'],
  [() => codex32.share(`${LONG_STRING.slice(0, -1)}q`), 'WRONG_CHECKSUM', null, 'The checksum is wrong.'],
  [() => codex32.share(`${LONG_STRING.slice(0, 9)}b${LONG_STRING.slice(10)}`), 'INVALID_CHARACTER', 9, `Character 10, “b”, may not stand behind the last “1”: ${LETTERS}`],
  [() => codex32.share('ms12xh04fm5amh7k7ay0jj7mgh3ndf4zdx0dmxgdrhz38hawaewk'), 'BITS_LEFT_OVER', null, 'Behind the last whole byte of the payload stand six bits, and at most four may.'],
  [() => codex32.proposeLong(A), 'BAD_LENGTH', null, 'The text has 48 characters; a codex32 string has from 125 to 127 where it is a long one.'],
  [() => codex32.proposeLong(`ms1${'?'.repeat(125)}`), 'BAD_LENGTH', 127, 'The text has 128 characters; a codex32 string has from 125 to 127 where it is a long one.'],
  [() => made(1, 'test', 'a'), 'BAD_THRESHOLD', null, 'The threshold is 1; it is 0, or from 2 to 9.'],
  [() => made(10, '', ''), 'BAD_THRESHOLD', null, 'The threshold is 10; it is 0, or from 2 to 9.'],
  [() => made(2, 'tes', ''), 'BAD_IDENTIFIER', null, 'The identifier has 3 characters; it has four.'],
  [() => made(2, 'q'.repeat(5000), 'a'), 'BAD_IDENTIFIER', null, 'The identifier has 5,000 characters; it has four.'],
  [() => made(2, 'teSt', 'a'), 'BAD_IDENTIFIER', null, 'The identifier has letters of both cases; all have one case.'],
  [() => made(2, 'tebt', 'a'), 'BAD_IDENTIFIER', null, 'The identifier has “b”, which may not stand there: letters and digits may, but not 1, b, i and o.'],
  [() => made(2, '😀', 'a'), 'BAD_IDENTIFIER', null, 'The identifier has 1 character; it has four.'],
  [() => made(2, 'test', '1'), 'NO_SHARE_INDEX', null, 'The share index is “1”: it is a letter or a digit, but not 1, b, i and o.'],
  [() => made(2, 'test', ''), 'NO_SHARE_INDEX', null, 'The share index has 0 characters; it has one.'],
  [() => made(0, 'test', '\u212a', 1), 'NO_SHARE_INDEX', null, 'The share index is the Kelvin sign, which looks like K (U+212A): it is a letter or a digit, but not 1, b, i and o.'],
  [() => made(0, 'test', 'a', 1), 'BAD_SHARE_INDEX', null, 'The share index is “a”; with the threshold 0 it is “s”.'],
  ...[0, 15, 45, 62, 65, 100, 5000].map((length) => [() => made(2, 'test', 'a', length), 'BAD_SIZE', null, `Of ${length === 5000 ? '5,000' : length} bytes there is no codex32 string; it has from 16 to 44, or 63 or 64.`]),
  [() => madeOf('b', [1, '', '']), 'BAD_THRESHOLD', null, 'The threshold is 1; it is 0, or from 2 to 9.'],
  [() => madeOf('b', [0, 'bank', 'b']), 'BAD_IDENTIFIER', null, 'The identifier has “b”, which may not stand there: letters and digits may, but not 1, b, i and o.'],
  [() => madeOf('b', [0, 'test', 'b']), 'NO_SHARE_INDEX', null, 'The share index is “b”: it is a letter or a digit, but not 1, b, i and o.'],
  [() => madeOf('b', [0, 'test', 'a']), 'BAD_SHARE_INDEX', null, 'The share index is “a”; with the threshold 0 it is “s”.'],
  [() => madeOf(A.slice(9, 35).replace('Z', 'b')), 'INVALID_CHARACTER', 3, `Character 4, “b”, may not stand in a payload: ${LETTERS}`],
  [() => madeOf(A.slice(9, 35).replace('Z', '1')), 'INVALID_CHARACTER', 3, `Character 4, “1”, may not stand in a payload: ${LETTERS}`],
  [() => madeOf('b1😀?'), 'INVALID_CHARACTER', 4, `Character 4, “?”, may not stand in a payload: ${LETTERS}`],
  [() => madeOf('qq\u212aqq'), 'INVALID_CHARACTER', 2, `Character 3, the Kelvin sign, which looks like K (U+212A), may not stand in a payload: ${LETTERS}`],
  [() => madeOf(A.slice(9, 35).replace('X', 'x')), 'MIXED_CASE', 5, 'Character 6, “x”, is a lower-case letter, and an upper-case one stands before it: all letters have one case.'],
  ...[0, 25, 27, 30, 72, 100, 102, 104, 5000].map((length) => [() => madeOf('q'.repeat(length)), 'BAD_SIZE', null, `The payload has ${length === 5000 ? '5,000' : length} characters; it has as many as 16 to 44 bytes have, from 26 to 71, or as 63 or 64 have, 101 or 103.`]),
  [() => codex32.derive([A, `${C.slice(0, -1)}Q`], 'bc'), 'NO_SHARE_INDEX', null, 'The share index has 2 characters; it has one.'],
  [() => codex32.derive([A, `${C.slice(0, -1)}Q`, 'b'], 'd'), 'WRONG_CHECKSUM', null, 'String 2: The checksum is wrong.', 1],
  [() => codex32.recover([A, C, 'abc']), 'INVALID_CHARACTER', 1, `String 3: Character 2, “b”, may not stand here, and no separator “1” stands before it: ${LETTERS}`, 2],
  [() => codex32.recover([A, 'q'.repeat(5000)]), 'BAD_LENGTH', 127, 'String 2: The text has 5,000 characters; a codex32 string has from 48 to 93, or from 125 to 127.', 1],
  [() => codex32.recover(['ms10testaxxxxxxxxxxxxxxxxxxxxxxxxxxzd568kp774rau']), 'BAD_SHARE_INDEX', 8, 'String 1: Character 9, “a”, is no share index of the threshold 0, which is s.', 0],
  [() => codex32.recover([A, C, made(3, 'name', 'd'), A]), 'OTHER_SET', null, 'String 3 is of another set than string 1: its threshold is 3, and not 2.', 2],
  [() => codex32.recover([A, made(2, 'cash', 'a')]), 'OTHER_SET', null, 'String 2 is of another set than string 1: its identifier is “cash”, and not “name”.', 1],
  [() => codex32.recover([A, made(2, 'name', 'd', 17)]), 'OTHER_SET', null, 'String 2 is of another set than string 1: it has 50 characters, and not 48.', 1],
  [() => codex32.recover([C, A, A]), 'INDEX_TWICE', null, 'Strings 2 and 3 have one share index, “a”.', 2],
  [() => codex32.derive([made(0, 'test', 's')], 'a'), 'BAD_SHARE_INDEX', null, 'With the threshold 0 the one string is the secret: there is none at the share index “a”.'],
  [() => codex32.recover([]), 'TOO_FEW_SHARES', null, 'There is no string.'],
  [() => codex32.recover([A]), 'TOO_FEW_SHARES', null, 'There is one string, and the threshold is 2.'],
  [() => codex32.recover([made(3, 'test', 'a'), made(3, 'test', 'c')]), 'TOO_FEW_SHARES', null, 'There are 2 strings, and the threshold is 3.'],
  [() => codex32.recover([A, C, made(2, 'name', 'd')]), 'CONTRADICTION', null, 'The strings contradict each other: at least one of them is wrong, or is of another secret.'],
  [() => codex32.recover([ODD.replace('ms14', 'ms10')]), 'WRONG_CHECKSUM', null, 'String 1: The checksum is wrong.', 0],
  [() => codex32.recover([ODD]), 'TOO_FEW_SHARES', null, 'There is one string, and the threshold is 4.'],
  [() => split(16, 1, 0, ''), 'BAD_THRESHOLD', null, 'The threshold is 1; it is 0, or from 2 to 9.'],
  [() => split(0, 0, 0, 'tebt'), 'BAD_IDENTIFIER', null, 'The identifier has “b”, which may not stand there: letters and digits may, but not 1, b, i and o.'],
  [() => split(0, 0, 0), 'BAD_SHARE_INDEX', null, 'The threshold is 0; a secret that is shared has one from 2 to 9.'],
  ...[0, 15, 45, 62, 65, 5000].map((length) => [() => split(length, 2, 0), 'BAD_SIZE', null, `Of ${length === 5000 ? '5,000' : length} bytes there is no codex32 string; it has from 16 to 44, or 63 or 64.`]),
  [() => split(16, 2, 1), 'BAD_COUNT', null, 'There is one share; with the threshold 2 there are from 2 to 31.'],
  [() => split(16, 9, 8), 'BAD_COUNT', null, 'There are 8 shares; with the threshold 9 there are from 9 to 31.'],
  [() => split(16, 2, 2 ** 40), 'BAD_COUNT', null, 'There are 1,099,511,627,776 shares; with the threshold 2 there are from 2 to 31.'],
  [() => split(16, 2, 2, 'test', { random: new Uint8Array(1) }), 'BAD_RANDOM', null, 'There is one random byte; one is taken for each character that is drawn, 26.'],
  ...[0, 51, 53, 5000].map((length) => [() => split(16, 3, 5, 'test', { random: new Uint8Array(length) }), 'BAD_RANDOM', null, `There are ${length === 5000 ? '5,000' : length} random bytes; one is taken for each character that is drawn, 52.`]),
  ...[0, 0x55, 255].map((byte) => [() => split(16, 3, 5, 'test', { random: new Uint8Array(52).fill(byte) }), 'EQUAL_RANDOM', null, 'The random bytes are all equal.']),

  // Of what is given as bytes no character is shown.
  [() => codex32.share(octets('ms10testsxxxbxxxx')), 'INVALID_CHARACTER', 12, 'A character behind the separator may not stand there.'],
  [() => codex32.share(octets(A.replace('X', 'x'))), 'MIXED_CASE', 14, 'The text has letters of both cases.'],
  [() => codex32.share(octets(`${LONG_STRING.slice(0, -1)}q`)), 'WRONG_CHECKSUM', null, 'The checksum is wrong.'],
  [() => liquid.decode('lq1p8wnk3sw45mype5gtnj3ff88n9g0lvkq49dlvm2chzwppddzkpd0tat26gzaufd46ugp3th2yaplp0xh0pdwuzek5n82fxektmhunk9jy38h86j2y9z2q'), 'UNSUPPORTED_VERSION', 3, 'Character 4, “p”, is the witness version 1; of confidential addresses only version 0 is read.'],
  [() => liquid.decode(blechText('blech32', 'lq', 'q'.repeat(41))), 'NO_BLINDING_KEY', null, 'A confidential address has less than 33 bytes behind its version.'],
  [() => descriptor.checksum('raw(d\u{1f600}adbeef)'), 'NOT_IN_DESCRIPTOR', 5, 'Character 6, U+1F600, may not stand in a descriptor, or not in its checksum.'],
  [() => descriptor.check('raw(deadbeef)#89f8spxb'), 'NOT_IN_DESCRIPTOR', 21, 'Character 22, “b”, may not stand in a descriptor, or not in its checksum.'],
  [() => descriptor.check('raw(deadbeef)'), 'NO_DESCRIPTOR_CHECKSUM', null, 'The text does not end in “#” and eight characters.'],
  [() => descriptor.check('raw(deedbeef)#89f8spxm'), 'WRONG_CHECKSUM', null, 'The checksum of the descriptor is wrong.'],
  [() => descriptor.mend('x'.repeat(7501)), 'DESCRIPTOR_TOO_LONG', null, 'The text has more than 7500 characters (1400 for two changes), too many to be mended.'],
  [() => codex32.share(octets('ms1qtestsxxxxxxxxxxxxxxxxxxxxxxxxxxq68ksv56lmaq5')), 'BAD_THRESHOLD', 3, 'The threshold is neither 0 nor a digit from 2 to 9.'],
  [() => codex32.share(octets('ms10testaxxxxxxxxxxxxxxxxxxxxxxxxxxzd568kp774rau')), 'BAD_SHARE_INDEX', 8, 'The threshold is 0, and the share index is not “s”.'],
  [() => codex32.share(octets('ms12xh04fm5amh7k7ay0jj7mgh3ndf4zdx0dmxgdrhz38hawaewk')), 'BITS_LEFT_OVER', null, 'Behind the last whole byte of the payload stand six bits, and at most four may.'],
  [() => codex32.share(new Uint8Array(5000)), 'BAD_LENGTH', null, 'A codex32 string has 48 to 93 characters, a long one 125 to 127.'],
  [() => codex32.recover([A, octets(`MT${C.slice(2)}`)]), 'NOT_MS', null, 'String 2: The human-readable part is not “ms”.', 1],
  [() => codex32.recover([octets(A), made(3, 'name', 'd')]), 'OTHER_SET', null, 'String 2 is of another set than string 1: its threshold is 3, and not 2.', 1],
  [() => codex32.recover([octets(C), A, octets(A.toLowerCase())]), 'INDEX_TWICE', null, 'Strings 2 and 3 have one share index, “a”.', 2],
  [() => madeOf(octets(A.slice(9, 35).replace('Z', '1'))), 'INVALID_CHARACTER', 3, 'A character of the payload may not stand there.'],
  [() => madeOf(octets(A.slice(9, 35).replace('X', 'x'))), 'MIXED_CASE', 5, 'The payload has letters of both cases.'],
  [() => madeOf(octets('qqq')), 'BAD_SIZE', null, 'The payload has 3 characters; it has as many as 16 to 44 bytes have, from 26 to 71, or as 63 or 64 have, 101 or 103.'],
];

for (const [call, ...wanted] of CASES) test(`${wanted[0]}: ${String(call).slice(6, 80)}`, () => assert.deepEqual(refusal(call), wanted));

test('what looks like a character and is another', () => {
  const sentence = (text) => refusal(() => decode(text))[2];
  assert.match(sentence('bc1qw508d6qejxtdg4y5r3zarvary0c5xw7\u212av8f3t4'), /^Character 36, the Kelvin sign, which looks like K \(U\+212A\), may not stand/);
  assert.match(sentence('a12uel\u200f5l'), /^Character 7, a right-to-left mark \(U\+200F\), may not stand/);
  assert.match(sentence('a12uel\ud8005l'), /^Character 7, half of a character \(U\+D800\), may not stand/);
  assert.match(sentence('\ud8001qqqqqq'), /^Character 1, half of a character \(U\+D800\), is not ASCII/);
  assert.match(sentence('a1😀q\u202e'), /^Character 5, a mark of direction \(U\+202E\)/);
  assert.match(sentence('a12uel5l<script>alert(1)</script>'), /^Character 33, “>”, may not stand/);
  assert.equal(refusal(() => decode('a1😀q\u202e'))[1], 5);
});

test('texts of a megabyte', () => {
  const long = 'q'.repeat(1 << 20);
  assert.equal(refusal(() => decode(long))[2], 'The text has 1,048,576 characters; a text has at most 1,023.');
  assert.equal(refusal(() => check('bech32', long))[0], 'TEXT_TOO_LONG');
  assert.equal(refusal(() => correct('bech32', long))[0], 'TEXT_TOO_LONG');
  assert.equal(refusal(() => segwit.decode(long))[0], 'ADDRESS_TOO_LONG');
  assert.equal(refusal(() => codex32.parse(long))[0], 'BAD_LENGTH');
  assert.equal(refusal(() => codex32.propose(long))[0], 'BAD_LENGTH');
  assert.equal(refusal(() => madeOf(long))[0], 'BAD_SIZE');
  assert.equal(refusal(() => encode('bech32', long, new Uint8Array()))[0], 'HRP_TOO_LONG');
  assert.equal(refusal(() => decode('\u{1f600}'.repeat(1 << 18)))[2], 'The text has 1,048,576 bytes; a text has at most 1,023.');
});

test('values of another type', () => {
  for (const call of [() => decode(5), () => decode(), () => check('bech32', null), () => check('bech33', 'a'), () => check('toString', 'a'), () => correct('longBech32', 'a12uel5l'),
    () => decodeStrict('a12uel5l'), () => decodeElements('bech32'), () => encodeElements('bech32', 'a', [1]),
    () => correct(1, 'a'), () => encode('bech32', 'a', [1]), () => encode('bech32', 1, new Uint8Array()), () => segwit.encode('bc', 0, 'x'),
    () => codex32.parse(undefined), () => codex32.propose({}), () => codex32.proposeLong(1), () => codex32.share([]), () => codex32.recover(octets(A)), () => codex32.share(Uint8Array.of(109, 115, 49, 255)), () => codex32.recover([A, Uint8Array.of(255)]), () => codex32.recover(A), () => codex32.recover(7), () => codex32.recover([A, 7]),
    () => codex32.derive([A, C]), () => codex32.encode(2, 'test', 'a', [1]), () => codex32.encode(2, 7, 'a', new Uint8Array(16)), () => codex32.encode(2, 'test', 0, new Uint8Array(16)),
    () => codex32.split('x', 2, 2), () => codex32.split([1], 2, 2), () => split(16, 2, 2, 7), () => split(16, 2, 2, 'test', { random: [1] }), () => split(16, 2, 2, 'test', { into: Array }), () => split(16, 2, 2, 'test', null),
    () => codex32.derive([A, C], 's', { into: 'Uint8Array' }), () => madeOf([1]), () => madeOf(), () => madeOf('q', [2, 7, 'a']), () => madeOf('q', [2, 'test', 0])]) assert.throws(call, TypeError);
  for (const call of [() => segwit.encode('bc', 32, new Uint8Array(2)), () => segwit.encode('bc', 0.5, new Uint8Array(2)), () => segwit.encode('bc', -1, new Uint8Array(2)),
    () => made('2', 'test', 'a'), () => made(32, 'test', 'a'), () => madeOf('q', ['2', 'test', 'a']), () => madeOf('q', [32, 'test', 'a']), () => codex32.recover(Array(33).fill(A)), () => split(16, 32, 2), () => split(16, 0.5, 2), () => split(16, 2, -1), () => split(16, 2, 2.5), () => split(16, 2, '2'), () => split(16, 2, 2 ** 60), () => correct('bech32', 'a12uel5l', [-1]), () => correct('bech32', 'a12uel5l', [0.5]), () => correct('bech32', 'a12uel5l', ['1'])]) assert.throws(call, RangeError);
});

// ---- all stored lines: the place is that of a character at fault

const isData = (c) => c.length === 1 && ALPHABET.includes(c.toLowerCase());
const bytesOf = (text) => new TextEncoder().encode(text).length;
const HAS_FAULT = {
  11: (text, place) => place === 0 && text.lastIndexOf('1') === 0,
  12: (text, place) => place <= 83 && place < text.lastIndexOf('1'),
  13: (text, place) => text.charCodeAt(place) > 127 && place < text.lastIndexOf('1'),
  14: (text, place) => !/[!-~]/.test(text[place]) && place < text.lastIndexOf('1'),
  21: (text, place) => !isData(text[place]) && Array.from(text.slice(place + 1)).every((c, i) => isData(c) || (i === 0 && /[\udc00-\udfff]/.test(c))),
  22: (text, place) => (/[A-Z]/.test(text[place]) ? /[a-z]/ : /[a-z]/.test(text[place]) ? /[A-Z]/ : /$^/).test(text.slice(0, place)),
  31: (text, place) => bytesOf(text.slice(0, place)) <= 1023 && bytesOf(text.slice(0, place + 1)) > 1023,
  32: (text, place) => text[place] === '1' && text.length - place <= 6,
  41: (text, place) => place <= 90,
  42: (text, place) => text[place] === '1',
  43: (text, place) => text[place - 1] === '1' && ALPHABET.indexOf(text[place].toLowerCase()) > 16,
  44: (text, place) => place === text.length - 7, 45: (text, place) => place === text.length - 7,
  81: (text, place) => text[place].toLowerCase() !== 'ms1'[place],
  83: (text, place) => place === 3, 84: (text, place) => place === 8,
};
const NO_PLACE = new Set([23, 33, 46, 47, 48]);

test('each refusal of the table is among these', async () => {
  const { CODES } = await import('../out/package/refusals.js');
  // Two are of rows of a column alone.
  const { numbers } = segwit.decodeMany([null, 'bc1qw508d6qejxtdg4y5r3zarvary0c5xw7kv8f3t4'], 'tb');
  assert.deepEqual(Array.from(numbers, (it) => CODES[it]), ['NULL_ROW', 'OTHER_HRP']);
  const seen = new Set([...CASES.map(([, code]) => code), ...Array.from(numbers, (it) => CODES[it])]);
  assert.deepEqual(Object.values(CODES).filter((code) => !seen.has(code)), []);
});

test('the place of each refusal of the stored lines', (t) => {
  const calls = { decode, 'segwit-decode': segwit.decode, parse: codex32.parse };
  const seen = {};
  for (const program of ['b32', 'c32']) {
    for (const line of fs.readFileSync(new URL(`../../crates/${program}/stdin`, import.meta.url), 'utf8').split('\n')) {
      const [command, text] = line.split(' ');
      if (!calls[command] || text === undefined) continue;
      try {
        calls[command](text);
      } catch (error) {
        const { number, place, message } = error;
        seen[number] = (seen[number] ?? 0) + 1;
        assert.doesNotMatch(message, /undefined|NaN|null|number/, message);
        if (place === null) assert.ok(NO_PLACE.has(number) || (number === 82 && text.length < 48), `${number} ${text}`);
        else assert.ok(number === 82 ? place === 93 : HAS_FAULT[number](text, place), `${number} at ${place} of ${text}`);
      }
    }
  }
  t.diagnostic(`refusals by number: ${JSON.stringify(seen)}`);
});
