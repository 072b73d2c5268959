// The functions of include/bech32.h and include/codex32.h: each returns `{ number }`, where the number is that of a
// refusal, or 0 and with it what the function wrote.
import { C } from './declared.js';
import { Instance, runner } from './instance.js';
import { LIST_REGIONS, SUGGEST_REGIONS, liquidNearestOf, listed, nearEditsOf, nearestOf, suggestionsOf } from './lists.js';
import { ALPHABET } from './reasons.js';

/** The numbers of the checksums by which texts are mended, and of all. */
export const CHECKSUMS = { bech32: 1, bech32m: 2 };
export const ALL_CHECKSUMS = { ...CHECKSUMS, longBech32: 3, longBech32m: 4 };

/** A text of more bytes is refused without a call: it is too long for each of them. */
export const TEXT_ROOM = 8192;

// The same of codex32 strings.
const STRING_ROOM = 4096;

const {
  BECH32_TEXT_TOO_LONG: TEXT_TOO_LONG, BECH32_ADDRESS_TOO_LONG: ADDRESS_TOO_LONG, CODEX32_BAD_LENGTH, CODEX32_BAD_RANDOM: BAD_RANDOM,
} = C;

// Sizes that are always large enough, as the headers have them.
const {
  BECH32_MAX_TEXT: MAX_TEXT, BECH32_MAX_HRP: MAX_HRP, BECH32_MAX_BYTES: MAX_BYTES, BECH32_MAX_SEGWIT_TEXT: MAX_SEGWIT_TEXT,
  BECH32_MAX_SEGWIT_PROGRAM: MAX_SEGWIT_PROGRAM, BECH32_MAX_LIQUID_TEXT: MAX_LIQUID_TEXT,
  BECH32_MAX_LIQUID_PROGRAM: MAX_LIQUID_PROGRAM, BECH32_LIQUID_KEY_LENGTH: LIQUID_KEY, BECH32_MAX_LONG_TEXT: MAX_LONG_TEXT,
  BECH32_MAX_LONG_BYTES: MAX_LONG_BYTES, BECH32_MAX_LONG_ELEMENTS: MAX_LONG_ELEMENTS, CODEX32_TEXT_SIZE: MAX_CODEX32,
  CODEX32_BYTES_SIZE: MAX_CODEX32_BYTES, CODEX32_IDENTIFIER_LENGTH: IDENTIFIER,
} = C;
const CODEX32_MEMORY = C.CODEX32_MEMORY(MAX_CODEX32);

/** The most strings that may be put together: one for each share index. */
export const MOST_SHARES = C.CODEX32_MAX_SHARES;

// The most shares that a secret is split into, the most random bytes that this takes, and the most characters of all shares.
const MOST_SPLIT = C.CODEX32_MAX_SPLIT, MOST_RANDOM = 8 * 103, SHARES_ROOM = MOST_SPLIT * MAX_CODEX32;

// Room for the locations of a correction: bech32_correct lists three at most.
const MAX_LISTED = 8;

// A human-readable part of more bytes is too long, and so is each text of more bytes of data. What does not fit here is
// left out, and the refusal is the same.
const HRP_ROOM = 96, BYTES_ROOM = MAX_LONG_TEXT;

const SIZE = 8;

const BECH32_REGIONS = {
  text: TEXT_ROOM, hrp: HRP_ROOM, bytes: BYTES_ROOM, erasures: SIZE * MAX_TEXT,
  hrpOut: MAX_HRP, hrpLength: SIZE, out: MAX_LONG_TEXT, outLength: SIZE, version: SIZE, place: SIZE, key: LIQUID_KEY,
  locations: SIZE * MAX_LISTED, values: MAX_LISTED, ...LIST_REGIONS,
};
// An identifier of more bytes is none, of more bytes there is no string, and more random bytes are too many. What does not
// fit here is left out.
const IDENTIFIER_ROOM = 16, SECRET_ROOM = 96, RANDOM_ROOM = MOST_RANDOM + SIZE;

const CODEX32_REGIONS = {
  text: STRING_ROOM, threshold: SIZE, shareIndex: SIZE, payloadLength: SIZE,
  texts: MOST_SHARES * STRING_ROOM, lengths: MOST_SHARES * SIZE, identifier: IDENTIFIER_ROOM, bytes: SECRET_ROOM,
  memory: 2 * SIZE, lent: CODEX32_MEMORY, identifierOut: IDENTIFIER, out: MAX_CODEX32, outLength: SIZE,
  random: RANDOM_ROOM, shares: SHARES_ROOM,
};

// The random bytes that a secret is split by: one for each character that is drawn.
const randomOf = (threshold, bytes) => (threshold - 1) * Math.ceil((8 * bytes) / 5);

// An identifier that stands for one that is not drawn yet, and one of four random bytes' lowest five bits.
const ANY = ALPHABET[0].repeat(IDENTIFIER);
const drawnIdentifier = (draw) => Array.from(draw(new Uint8Array(IDENTIFIER)), (byte) => ALPHABET[byte & 31]).join('');

// Erasures are locations, of which 0 is the last character.
const erasuresOf = (given) => [...new Set(given)].slice(0, MAX_TEXT);

/** The calls of the module of `bech32_c`. */
export const bech32Calls = (module) => {
  const it = new Instance(module, BECH32_REGIONS), run = runner(module);
  const p = (region) => it.pointer(region);
  const textOut = () => it.text('out', it.size('outLength'));

  return {
    encode(checksum, hrp, bytes) {
      const hrpLength = it.putText('hrp', hrp).length, length = it.putBytes('bytes', bytes);
      const number = it.call('bech32_encode', checksum, p('hrp'), hrpLength, p('bytes'), length, p('out'),
        BigInt(MAX_LONG_TEXT), p('outLength'));
      return number ? { number } : { number, text: textOut() };
    },
    decode(text) {
      const { length, isWhole } = it.putText('text', text);
      if (!isWhole) return { number: TEXT_TOO_LONG };
      const number = it.call('bech32_decode', p('text'), length, p('hrpOut'), BigInt(MAX_HRP), p('hrpLength'), p('out'),
        BigInt(MAX_BYTES), p('outLength'));
      if (number) return { number };
      return { number, hrp: it.text('hrpOut', it.size('hrpLength')), bytes: it.copy('out', it.size('outLength')) };
    },
    check(checksum, text) {
      const { length, isWhole } = it.putText('text', text);
      if (!isWhole) return { number: TEXT_TOO_LONG };
      const number = it.call('bech32_check', checksum, p('text'), length, p('hrpLength'), p('outLength'));
      return number ? { number } : { number, hrpLength: it.size('hrpLength'), dataLength: it.size('outLength') };
    },
    /** The place of a text's fault, counted in JavaScript's characters. Where there is a length at fault it is that. */
    fault(text) {
      const { length } = it.putText('text', text);
      it.call('bech32_fault', CHECKSUMS.bech32m, p('text'), length, p('outLength'));
      return it.characters('text', it.size('outLength'));
    },
    segwitEncode(hrp, version, program) {
      const hrpLength = it.putText('hrp', hrp).length, length = it.putBytes('bytes', program);
      const number = it.call('bech32_segwit_encode', p('hrp'), hrpLength, version, p('bytes'), length, p('out'),
        BigInt(MAX_SEGWIT_TEXT), p('outLength'));
      return number ? { number } : { number, text: textOut() };
    },
    segwitDecode(text) {
      const { length, isWhole } = it.putText('text', text);
      if (!isWhole) return { number: ADDRESS_TOO_LONG };
      const number = it.call('bech32_segwit_decode', p('text'), length, p('hrpOut'), BigInt(MAX_HRP), p('hrpLength'),
        p('version'), p('out'), BigInt(MAX_SEGWIT_PROGRAM), p('outLength'));
      if (number) return { number };
      const hrp = it.text('hrpOut', it.size('hrpLength'));
      return { number, hrp, version: it.number('version'), program: it.copy('out', it.size('outLength')) };
    },
    correct(checksum, text, erasures = []) {
      const { length, isWhole } = it.putText('text', text);
      if (!isWhole) return { number: TEXT_TOO_LONG };
      const given = it.putSizes('erasures', erasuresOf(erasures));
      const number = it.call('bech32_correct', checksum, p('text'), length, p('erasures'), given, p('locations'),
        BigInt(MAX_LISTED), p('values'), BigInt(MAX_LISTED), p('count'), p('out'), BigInt(MAX_TEXT), p('outLength'));
      if (number) return { number };
      const values = it.copy('values', it.size('count'));
      const errors = Array.from(values, (value, i) => ({ location: it.size('locations', i), value }));
      return { number, errors, text: textOut() };
    },
    nearest(checksum, text, erasures, errors) {
      if (!it.putText('text', text).isWhole) return { number: TEXT_TOO_LONG };
      return listed(run, it, BECH32_REGIONS, nearestOf(checksum, text, erasuresOf(erasures), errors));
    },
    nearEdits(checksum, text) {
      if (!it.putText('text', text).isWhole) return { number: TEXT_TOO_LONG };
      return listed(run, it, BECH32_REGIONS, nearEditsOf(checksum, text));
    },
    /** A text that is the only one of what it is decoded to: its human-readable part and its bytes. */
    decodeStrict(checksum, text) {
      const { length, isWhole } = it.putText('text', text);
      if (!isWhole) return { number: TEXT_TOO_LONG };
      const number = it.call('bech32_decode_strict', checksum, p('text'), length, p('hrpOut'), BigInt(MAX_HRP), p('hrpLength'),
        p('out'), BigInt(MAX_LONG_BYTES), p('outLength'));
      if (number) return { number };
      return { number, hrp: it.text('hrpOut', it.size('hrpLength')), bytes: it.copy('out', it.size('outLength')) };
    },
    decodeElements(checksum, text) {
      const { length, isWhole } = it.putText('text', text);
      if (!isWhole) return { number: TEXT_TOO_LONG };
      const number = it.call('bech32_decode_elements', checksum, p('text'), length, p('hrpOut'), BigInt(MAX_HRP),
        p('hrpLength'), p('out'), BigInt(MAX_LONG_ELEMENTS), p('outLength'));
      if (number) return { number };
      return { number, hrp: it.text('hrpOut', it.size('hrpLength')), elements: it.copy('out', it.size('outLength')) };
    },
    encodeElements(checksum, hrp, elements) {
      const hrpLength = it.putText('hrp', hrp).length, length = it.putBytes('bytes', elements);
      const number = it.call('bech32_encode_elements', checksum, p('hrp'), hrpLength, p('bytes'), length, p('place'), p('out'),
        BigInt(MAX_LONG_TEXT), p('outLength'));
      return number ? { number, place: it.size('place') } : { number, text: textOut() };
    },
    /** A key of 33 bytes. */
    liquidEncode(hrp, version, key, program) {
      const hrpLength = it.putText('hrp', hrp).length, length = it.putBytes('bytes', program);
      it.putBytes('key', key);
      const number = it.call('bech32_liquid_encode', p('hrp'), hrpLength, version, p('key'), p('bytes'), length, p('out'),
        BigInt(MAX_LIQUID_TEXT), p('outLength'));
      return number ? { number } : { number, text: textOut() };
    },
    liquidDecode(text) {
      const { length, isWhole } = it.putText('text', text);
      if (!isWhole) return { number: TEXT_TOO_LONG };
      const number = it.call('bech32_liquid_decode', p('text'), length, p('hrpOut'), BigInt(MAX_HRP), p('hrpLength'),
        p('version'), p('key'), p('out'), BigInt(MAX_LIQUID_PROGRAM), p('outLength'));
      if (number) return { number };
      const hrp = it.text('hrpOut', it.size('hrpLength')), key = it.copy('key', LIQUID_KEY);
      return { number, hrp, version: it.number('version'), key, program: it.copy('out', it.size('outLength')) };
    },
    liquidNearest(text, erasures, errors) {
      if (!it.putText('text', text).isWhole) return { number: TEXT_TOO_LONG };
      return listed(run, it, BECH32_REGIONS, liquidNearestOf(text, erasuresOf(erasures), errors));
    },
    suggest(text, hrp) {
      if (!it.putText('text', text).isWhole) return { number: 0, found: [] };
      const list = suggestionsOf(text, hrp);
      return run(SUGGEST_REGIONS, (other) => list(other, SUGGEST_REGIONS));
    },
    wipe: () => it.wipe(),
  };
};

// Puts texts one behind another into a region, and their lengths into another: the length of all, or null where one of them
// is too long to be given to the library.
const putTexts = (it, texts) => {
  let end = 0;
  const lengths = [];
  for (const text of texts) {
    const { length, isWhole } = it.putText('texts', text, end);
    if (!isWhole || length > STRING_ROOM) return null;
    lengths.push(length);
    end += Number(length);
  }
  it.putSizes('lengths', lengths);
  return BigInt(end);
};

/**
 * The calls of the module of `codex32_c`. Its memory is wiped after each, since a codex32 string is a secret. Texts are strings
 * or Uint8Arrays, and so are those that are made, by the last argument.
 */
export const codex32Calls = (module) => {
  const it = new Instance(module, CODEX32_REGIONS);
  const p = (region) => it.pointer(region);
  const shareIndexOut = () => String.fromCharCode(it.number('shareIndex'));
  const textIn = (region, length, asBytes, from) => (asBytes ? it.copy : it.text).call(it, region, length, from);
  const made = (number, asBytes) => (number ? { number } : { number, text: textIn('out', it.size('outLength'), asBytes) });
  const wiped = (call) => (...given) => {
    try {
      return call(...given);
    } finally {
      it.wipe();
    }
  };
  const ofText = (call) => wiped((text) => {
    const { length, isWhole } = it.putText('text', text);
    return isWhole ? call(text, length) : { number: CODEX32_BAD_LENGTH };
  });
  const proposing = (name) => ofText((text, length) => {
    it.putSizes('memory', [it.at.lent, CODEX32_MEMORY]);
    return made(it.call(name, p('text'), length, p('memory'), p('out'), BigInt(MAX_CODEX32), p('outLength')));
  });
  return {
    parse: ofText((text, length) => {
      const number = it.call('codex32_parse', p('text'), length, p('threshold'), p('shareIndex'), p('payloadLength'));
      if (number) return { number };
      return {
        number, threshold: it.number('threshold'), identifier: text.slice(4, 8),
        shareIndex: shareIndexOut(), payload: text.slice(9, 9 + it.size('payloadLength')),
      };
    }),
    propose: proposing('codex32_propose'),
    proposeLong: proposing('codex32_propose_long'),
    share: ofText((text, length) => {
      const number = it.call('codex32_share', p('text'), length, p('threshold'), p('identifierOut'), p('shareIndex'),
        p('out'), BigInt(MAX_CODEX32_BYTES), p('outLength'));
      if (number) return { number };
      return {
        number, threshold: it.number('threshold'), identifier: it.text('identifierOut', IDENTIFIER),
        shareIndex: shareIndexOut(), bytes: it.copy('out', it.size('outLength')),
      };
    }),
    /** `shareIndex` is the code of a character here, as of `encodePayload` and `derive`. */
    encode: wiped((threshold, identifier, shareIndex, bytes, asBytes) => {
      const { length } = it.putText('identifier', identifier), size = it.putBytes('bytes', bytes);
      return made(it.call('codex32_encode', threshold, p('identifier'), length, shareIndex, p('bytes'), size, p('out'),
        BigInt(MAX_CODEX32), p('outLength')), asBytes);
    }),
    /** A payload is given to the library as far as a text is: of longer ones there is no string. */
    encodePayload: wiped((threshold, identifier, shareIndex, payload, asBytes) => {
      const { length } = it.putText('identifier', identifier), { length: size } = it.putText('text', payload);
      return made(it.call('codex32_encode_payload', threshold, p('identifier'), length, shareIndex, p('text'), size, p('out'),
        BigInt(MAX_CODEX32), p('outLength')), asBytes);
    }),
    derive: wiped((shareIndex, texts, asBytes) => {
      const length = putTexts(it, texts);
      if (length === null) return { number: CODEX32_BAD_LENGTH };
      return made(it.call('codex32_derive', shareIndex, p('texts'), length, p('lengths'), BigInt(texts.length), p('out'),
        BigInt(MAX_CODEX32), p('outLength')), asBytes);
    }),
    recover: wiped((texts) => {
      const length = putTexts(it, texts);
      if (length === null) return { number: CODEX32_BAD_LENGTH };
      const number = it.call('codex32_recover', p('texts'), length, p('lengths'), BigInt(texts.length), p('out'),
        BigInt(MAX_CODEX32_BYTES), p('outLength'));
      return number ? { number } : { number, bytes: it.copy('out', it.size('outLength')) };
    }),
    /**
     * `random` are the random bytes, or null: then `draw` puts them into an array, once all else is in order, and draws an
     * identifier where that is null.
     */
    split: wiped((threshold, identifier, secret, count, { random, draw, asBytes }) => {
      const size = it.putBytes('bytes', secret);
      const called = (named, randomLength) => {
        const { length } = it.putText('identifier', named);
        return it.call('codex32_split', threshold, p('identifier'), length, p('bytes'), size, p('random'), randomLength,
          BigInt(count), p('shares'), BigInt(SHARES_ROOM), p('outLength'));
      };
      let number = called(identifier ?? ANY, it.putBytes('random', random ?? new Uint8Array()));
      if (random === null && number === BAD_RANDOM) {
        const length = randomOf(threshold, secret.length);
        draw(it.part('random', length));
        number = called(identifier ?? drawnIdentifier(draw), BigInt(length));
      }
      if (number) return { number };
      const length = it.size('outLength');
      return { number, texts: Array.from({ length: count }, (_, i) => textIn('shares', length, asBytes, i * length)) };
    }),
  };
};
