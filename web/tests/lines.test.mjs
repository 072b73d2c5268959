// The stored lines of the programs b32 and c32, of which the replies come from a model and from the Rust crate: the
// package replies as the programs do.
import test from 'node:test';
import assert from 'node:assert/strict';
import fs from 'node:fs';
import { Refused, check, codex32, correct, decode, decodeElements, decodeStrict, encode, encodeElements, liquid, nearEdits, segwit } from '../out/package/index.js';
import { bech32Calls, CHECKSUMS } from '../out/package/calls.js';
import { compiled } from '../out/package/modules.js';
import { ALPHABET } from './reference.mjs';

const TOP = new URL('../../', import.meta.url);
// A line has so many bytes at most.
const MOST = { b32: 4096, c32: 16384 };
const LONG = { 'long-bech32': 'longBech32', 'long-bech32m': 'longBech32m' };

class Reply extends Error {}
const err = (number) => { throw new Reply(`err ${number}`); };

const linesOf = (file) => {
  const bytes = fs.readFileSync(new URL(file, TOP));
  const lines = [];
  for (let from = 0; from < bytes.length;) {
    const end = bytes.indexOf(10, from), to = end === -1 ? bytes.length : end;
    lines.push(bytes.subarray(from, to));
    from = to + 1;
  }
  return lines;
};

// ---- the words of a line, as the programs read them

const textOf = (line, most) => {
  if (line.length > most) err(1);
  try {
    return new TextDecoder('utf-8', { fatal: true, ignoreBOM: true }).decode(line);
  } catch {
    return err(2);
  }
};
const checksumOf = (word) => (Object.hasOwn(CHECKSUMS, word) ? word : err(3));
const anyChecksumOf = (word) => (Object.hasOwn(LONG, word) ? LONG[word] : checksumOf(word));
const hexOf = (word) => {
  if (word === '-') return new Uint8Array();
  return /^(?:[0-9a-f]{2})+$/i.test(word) ? Uint8Array.from(Buffer.from(word, 'hex')) : err(5);
};
const hexWord = (bytes) => Buffer.from(bytes).toString('hex') || '-';
const versionOf = (word) => (/^(?:[0-9]|[12][0-9]|3[01])$/.test(word) ? Number(word) : err(4));
const locationsOf = (word) => {
  if (word === undefined) return [];
  const words = word.split(',');
  if (!words.every((it) => /^(?:0|[1-9][0-9]{0,3})$/.test(it) && Number(it) <= 1022)) err(4);
  return words.map(Number);
};
const wanted = (words, ...counts) => (counts.includes(words.length) ? words : err(3));

// ---- replies

// The programs reply in lower case, and the package in the case of the text: that of the reply is compared, and then taken.
const inLowerCase = (given, found) => {
  const isUpper = /[A-Z]/.test(given) && !/[a-z]/.test(given);
  assert.equal(found, isUpper ? found.toUpperCase() : found.toLowerCase(), given);
  return found.toLowerCase();
};

const calls = bech32Calls(compiled().modules[0]);

// The corrections by locations, as the program takes them: a place of the package has to be one of the text.
const corrected = (checksum, text, locations) => {
  const { number, errors, text: mended } = calls.correct(CHECKSUMS[checksum], text, locations);
  if (number === 34) return 'none';
  if (number) err(number);
  return errors.length === 0 ? 'fine' : `ok ${errors.map(({ location, value }) => `${location}:${ALPHABET[value]}`).join(' ')} ${mended}`;
};
const correctedByPlaces = (checksum, text, locations) => {
  if (locations.some((location) => location >= text.length)) return null;
  const correction = correct(checksum, text, locations.map((location) => text.length - 1 - location));
  return correction ? inLowerCase(text, correction.text) : 'none';
};

const OF_TEXTS = {
  encode(words) {
    const [, checksum, hrp, hex] = wanted(words, 4);
    return `ok ${encode(anyChecksumOf(checksum), hrp, hexOf(hex))}`;
  },
  decode(words) {
    const { checksum, hrp, bytes } = decode(wanted(words, 2)[1]);
    check(checksum, words[1]);
    return `ok ${hrp.toLowerCase()} ${hexWord(bytes)}`;
  },
  'decode-strict'(words) {
    const [, checksum, text] = wanted(words, 3), { hrp, bytes } = decodeStrict(anyChecksumOf(checksum), text);
    return `ok ${hrp.toLowerCase()} ${hexWord(bytes)}`;
  },
  'decode-elements'(words) {
    const [, checksum, text] = wanted(words, 3), { hrp, elements } = decodeElements(anyChecksumOf(checksum), text);
    return `ok ${hrp.toLowerCase()} ${hexWord(elements)}`;
  },
  'encode-elements'(words) {
    const [, checksum, hrp, hex] = wanted(words, 4);
    return `ok ${encodeElements(anyChecksumOf(checksum), hrp, hexOf(hex))}`;
  },
  'segwit-encode'(words) {
    const [, hrp, version, hex] = wanted(words, 4);
    const number = versionOf(version);
    return `ok ${segwit.encode(hrp, number, hexOf(hex))}`;
  },
  'segwit-decode'(words) {
    const { hrp, version, program } = segwit.decode(wanted(words, 2)[1]);
    return `ok ${hrp.toLowerCase()} ${version} ${hexWord(program)}`;
  },
  'liquid-encode'(words) {
    const [, hrp, version, word, hex] = wanted(words, 5);
    const number = versionOf(version), key = hexOf(word);
    if (key.length !== 33) err(5);
    return `ok ${liquid.encode(hrp, number, key, hexOf(hex))}`;
  },
  'liquid-decode'(words) {
    const { hrp, version, key, program } = liquid.decode(wanted(words, 2)[1]);
    return `ok ${hrp.toLowerCase()} ${version} ${hexWord(key)} ${hexWord(program)}`;
  },
  correct(words) {
    const [, name, text, given] = wanted(words, 3, 4);
    const checksum = checksumOf(name), locations = locationsOf(given);
    const reply = corrected(checksum, text, locations), mended = correctedByPlaces(checksum, text, locations);
    if (mended !== null) assert.equal(mended, reply === 'fine' ? text.toLowerCase() : reply.split(' ').at(-1), text);
    return reply;
  },
};

// What a call returns, or the number of its refusal as bytes.
const refusedAs = (call) => {
  try {
    return call();
  } catch (error) {
    if (!(error instanceof Refused)) throw error;
    return [error.number];
  }
};

const OF_STRINGS = {
  parse(words) {
    const { threshold, identifier, shareIndex, payload } = codex32.parse(wanted(words, 2)[1]);
    return `ok ${threshold} ${identifier} ${shareIndex} ${payload}`;
  },
  propose(words) {
    const proposal = codex32.propose(wanted(words, 2)[1]);
    return proposal ? `some ${inLowerCase(words[1], proposal.text)}` : 'none';
  },
  'propose-long'(words) {
    const proposal = codex32.proposeLong(wanted(words, 2)[1]);
    return proposal ? `some ${inLowerCase(words[1], proposal.text)}` : 'none';
  },
  share(words) {
    const { threshold, identifier, shareIndex, bytes } = codex32.share(wanted(words, 2)[1]);
    return `ok ${threshold} ${identifier} ${shareIndex} ${hexWord(bytes)}`;
  },
  encode(words) {
    const [, threshold, identifier, shareIndex, hex] = wanted(words, 5), bytes = hexOf(hex);
    return `ok ${codex32.encode(/^[0-9]$/.test(threshold) ? Number(threshold) : err(83), identifier, shareIndex, bytes)}`;
  },
  split(words) {
    const [, threshold, number, identifier, hex, bytes] = wanted(words, 6);
    const count = /^(?:[0-9]|[1-9][0-9])$/.test(number) ? Number(number) : err(4), secret = hexOf(hex), random = hexOf(bytes);
    return `ok ${codex32.split(secret, /^[0-9]$/.test(threshold) ? Number(threshold) : err(83), count, identifier, { random }).join(' ')}`;
  },
  derive([, shareIndex, ...texts]) {
    if (texts.length === 0) err(3);
    return `ok ${codex32.derive(texts, shareIndex)}`;
  },
  recover([, ...texts]) {
    if (texts.length === 0) err(3);
    const own = codex32.derive(texts, 's'), bytesOf = (call) => hexWord(refusedAs(call));
    assert.equal(bytesOf(() => codex32.recover(texts)), bytesOf(() => codex32.share(own).bytes), own);
    return `ok ${own}`;
  },
};

const replyTo = (line, most, commands, count) => {
  try {
    const words = textOf(line, most).split(' ');
    if (!Object.hasOwn(commands, words[0]) || words.includes('')) err(3);
    count.called++;
    return commands[words[0]](words);
  } catch (error) {
    if (error instanceof Reply) return error.message;
    if (error instanceof Refused) return `err ${error.number}`;
    throw error;
  }
};

for (const [program, commands] of [['b32', OF_TEXTS], ['c32', OF_STRINGS]]) {
  test(`replies to the stored lines of ${program}`, (t) => {
    const lines = linesOf(`crates/${program}/stdin`), replies = linesOf(`crates/${program}/stdout`);
    assert.equal(lines.length, replies.length);
    const count = { called: 0 };
    lines.forEach((line, i) => {
      const shown = line.toString('latin1'), wanted = replies[i].toString('latin1');
      assert.equal(replyTo(line, MOST[program], commands, count), wanted, `line ${i + 1}: ${shown.slice(0, 200)}`);
    });
    t.diagnostic(`${lines.length} lines, of which ${count.called} have the words of a command`);
    assert.ok(count.called > lines.length / 2);
  });
}

// The words of each row of vector_rows that begins with a name, with its reply.
const vectorRows = (name) => {
  const [rows, replies] = ['stdin', 'stdout'].map((it) => linesOf(`crates/vector_rows/${it}`).map((line) => line.toString('latin1')));
  return rows.map((row, i) => [row.split('|'), replies[i]]).filter(([words]) => words[0] === name).map(([words, reply]) => [words.slice(1), reply]);
};

test('replies to the stored rows of long texts, whose lines would be too long', (t) => {
  const rows = vectorRows('long');
  const count = { called: 0 };
  rows.forEach(([words, reply]) => {
    const line = words.join(' ');
    assert.equal(replyTo(Buffer.from(line), line.length, OF_TEXTS, count), reply, line.slice(0, 200));
  });
  t.diagnostic(`${rows.length} rows`);
  assert.equal(rows.length, 20);
});

const MARKS = { swapped: 'x', leftOut: '-', putIn: '+' };

// A text with the edit that makes it, as the rows have it: locations count from the end.
const rowOf = ({ text, edit: { kind, place, characters } }, given) =>
  `${inLowerCase(given, text)},${MARKS[kind]}${given.length - place - (kind === 'putIn' ? 0 : characters.length)}:${characters.toLowerCase()}`;

test('the texts that one edit makes are those of the stored rows', (t) => {
  const rows = vectorRows('edits');
  rows.forEach(([[name, given], reply]) => {
    const checksum = name.toLowerCase(), found = nearEdits(checksum, given);
    found.forEach((it) => check(checksum, it.text));
    assert.equal(found.map((it) => rowOf(it, given)).join(' ') || 'none', reply, given);
  });
  t.diagnostic(`${rows.length} rows`);
  assert.equal(rows.length, 300);
});
