// A link: its scheme is taken off, and the parts of it that name a text to pay to are read (BIP-21 and BIP-321).
import { AROUND, LINK } from './sentences.js';

const SCHEME = /^((?:bitcoin|litecoin|lightning|nostr|zcash|liquidnetwork|liquidtestnet|web\+(?:cardano|lightning|nostr)):)(?:\/\/)?/i;
const PARTS = /\?([a-z][a-z0-9-]*=.*)$/is;

// The parts that are read, by their names in lower case.
const READ = ['sp', 'lno', 'lightning', 'bc', 'tb'];

const decoded = (value) => {
  try {
    return decodeURIComponent(value);
  } catch {
    return value;
  }
};

const partsOf = (given) => given.split('&').map((it) => {
  const end = it.indexOf('='), name = end < 0 ? it : it.slice(0, end);
  return { name: name.toLowerCase(), text: end < 0 ? '' : decoded(it.slice(end + 1)) };
});

const noteOf = (scheme, ways, isMore) => {
  if (!scheme && ways.every(({ name }) => name === 'address')) return AROUND.behind;
  const only = ways.length === 1 && ways[0].name !== 'address' ? [LINK.only(ways[0].name)] : [];
  return [...(scheme ? [LINK.taken(scheme)] : []), ...only, ...(isMore ? [LINK.more] : [])].join(' ');
};

/**
 * The `ways` to pay that a link names, each with the name of its part and a text, and `notes` on what was left out; null
 * where the text is no link. `hasParts`: something follows its `?`.
 */
export const linkOf = (text) => {
  const [start, scheme] = SCHEME.exec(text) ?? ['', ''], rest = text.slice(start.length);
  const [, given] = PARTS.exec(rest) ?? [], address = given === undefined ? rest : rest.slice(0, -given.length - 1);
  if (!scheme && given === undefined) return null;
  const parts = given === undefined ? [] : partsOf(given), read = parts.filter(({ name, text: it }) => READ.includes(name) && it !== '');
  const ways = [{ name: 'address', text: address }, ...read].filter((it) => it.text.trim() !== '');
  return { ways, notes: [noteOf(scheme, ways, read.length < parts.length)], hasParts: given !== undefined };
};
