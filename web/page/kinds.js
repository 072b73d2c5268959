// What a text is that a checksum accepts, and what lengths addresses have.
import { asciiLower } from '../src/reasons.js';
import { isAddressLike } from './beginnings.js';
import { knownPart } from './parts.js';
import { LENGTH, VALID } from './sentences.js';
import { tried } from './tried.js';
import { hex } from './words.js';

/** The checksums with their names. */
export const CHECKSUMS = [['bech32m', 'Bech32m'], ['bech32', 'Bech32']];

/** The same for texts of more than `SHORT` characters, up to `LONG`, which are tested and not corrected. */
export const LONG_CHECKSUMS = [['longBech32m', 'Bech32m'], ['longBech32', 'Bech32']];
export const SHORT = 1023;
export const LONG = 7089;

/** The checksums that may accept a text. */
export const checksumsFor = ({ length }) => (length > SHORT ? LONG_CHECKSUMS : CHECKSUMS);

/** The checksums that texts of a known part have. */
export const checksumsOf = ({ checksum: only }) => CHECKSUMS.filter(([checksum]) => only === null || only === checksum);

// The programs of witness versions that are in use, with their sizes in bytes.
const PROGRAMS = [[0, 20], [0, 32], [1, 32]];

const isText = { isAddress: false, isBroken: false, isOfferable: true, facts: [] };

// An output of another form has no rule for spending, and anyone may take it: no such address is offered.
const isForm = ({ version, program }) => PROGRAMS.some(([of, size]) => of === version && size === program.length);

const addressKind = (known, { hrp, version, program }, name) => ({
  isAddress: true, isBroken: false, isOfferable: isForm({ version, program }), known,
  said: [known ? VALID.network(known.network, name) : VALID.otherNetwork(hrp), ...(known ? VALID.pays(version, program.length) : [])],
  facts: [{ name: VALID.program(version, program.length), text: hex(program) }],
});

// Zcash has a kind of address whose part is that of Liquid's test network.
const TEX = { what: 'a Zcash address that takes transparent funds alone', checksum: 'bech32m', sizes: [38] };
const isTex = (part, data, name) => part === 'tex' && name === 'Bech32m' && data.length === 32;

// Why a text of a known kind is none although a checksum accepts it, or null.
const whyNone = ({ checksum, sizes, isExact }, { hrp, data }, name) => {
  if (!isExact) return null;
  const [[, wanted]] = checksumsOf({ checksum });
  if (wanted !== name) return VALID.kindChecksum(wanted);
  const size = data.length + 6, before = hrp.length + 1;
  return sizes.includes(size) ? null : VALID.kindSize(before + size, sizes.map((it) => before + it));
};

const brokenAddress = (known, { code, message }, name) => {
  const other = VALID.otherChecksum(name === 'Bech32' ? 'Bech32m' : 'Bech32');
  return { isAddress: false, isBroken: true, isOfferable: false, known, said: [], facts: [], why: code === 'WRONG_CHECKSUM' ? other : message };
};

/**
 * What a text is that the checksum of this name accepts, and what is `known` of its part. `isBroken`: it begins like one of a
 * known kind, and is none, and `why`.
 */
export const kindOf = (library, text, parts, name) => {
  const part = asciiLower(parts.hrp), known = knownPart(part);
  const { value, refused } = tried(() => library.segwit.decode(text));
  if (isTex(part, parts.data, name)) return { ...isText, known: TEX, said: [VALID.alone] };
  if (value && (!known || known.network)) return addressKind(known, value, name);
  if (!known) return { ...isText, known, said: [VALID.unknown(parts.hrp, parts.data.length)] };
  if (known.network) return brokenAddress(known, refused, name);
  const why = whyNone(known, parts, name);
  if (why) return { ...isText, isBroken: true, isOfferable: false, known, said: [], why };
  const upper = known.isUpper && text !== text.toUpperCase() ? [VALID.upper] : [];
  return { ...isText, known, said: [...upper, known.isInvoice ? VALID.invoice : VALID.alone] };
};

// ---- lengths

// The lengths of addresses in use that begin as a text does, and their version, as the library writes them.
const addressesLike = (library, text) => {
  const hrp = asciiLower(text.slice(0, text.indexOf('1'))), place = hrp.length + 1;
  const written = PROGRAMS.map(([version, size]) => ({ version, text: library.segwit.encode(hrp, version, new Uint8Array(size)) }));
  return written.filter((it) => it.text[place] === asciiLower(text.charAt(place)));
};

/** Whether a text that begins as addresses do has the version and the length of one in use. */
export const isInUse = (library, text) =>
  addressesLike(library, text).some((it) => it.text.length === Array.from(text).length);

const NEAR = 2;

/** What the slip may have been where a text has a length that is near to one of those it should have. */
export const slipSaid = (count, lengths) => {
  const missing = Math.min(...lengths.map((it) => it - count).filter((it) => it > 0));
  const more = Math.min(...lengths.map((it) => count - it).filter((it) => it > 0));
  if (missing <= NEAR) return [LENGTH.missing(missing)];
  return more <= NEAR ? [LENGTH.more(more)] : [];
};

/**
 * What is said of the length of a text that begins as an address of a network does, or null where such an address is in
 * use, or where the text begins otherwise: a `sentence`, that of a `whole` text, and what the `slip` may have been. `isShort`:
 * every address is longer.
 */
export const lengthOf = (library, text) => {
  if (!isAddressLike(text)) return null;
  const like = addressesLike(library, text), count = Array.from(text).length;
  const lengths = like.map((it) => it.text.length);
  if (like.length === 0 || lengths.includes(count)) return null;
  const isShort = count < Math.min(...lengths), kind = LENGTH.kind(like[0].version);
  const sentence = (isSoFar) => LENGTH.has(count, isSoFar, kind, lengths);
  return { isShort, sentence: sentence(isShort), whole: sentence(false), slip: slipSaid(count, lengths) };
};
