// What the page says of an output descriptor (BIP-380).
import { withinOf } from './others.js';
import { columnsOf, edited, mendingOf, sizesOf } from './pair.js';
import { foreign, mended, unmended } from './saying.js';
import { DESCRIPTOR, NONE, OTHER, WARNINGS } from './sentences.js';
import { tried } from './tried.js';

// What descriptors begin with. Another text with brackets may be right.
const DESCRIPTOR_NAMES = /^(?:pk|pkh|wpkh|sh|wsh|tr|rawtr|combo|multi|sortedmulti|musig|addr|raw)\(/i;

// The end of a text in which a checksum begins, where one is meant.
const END = 11;

// Here a letter in the other case is another character.
const columnsIn = (before, after, edit) =>
  columnsOf(before, Array.from(after), edit).map((it) => ({ ...it, isChanged: it.from !== it.to }));

const offerOf = (before, isSecret) => ({ text, kind, places: [place] }) => {
  const edit = sizesOf[kind] ? { at: place, ...sizesOf[kind] } : undefined, columns = columnsIn(before, text, edit);
  const mending = edit ? edited(columns, { kind, place }) : mendingOf(columns);
  const warning = isSecret ? { warning: WARNINGS.wallet } : {};
  return { ...mending, columns, text, said: [DESCRIPTOR.mended(mending.count)], facts: [], isAddress: false, isSecret, faults: [], ...warning };
};

// A descriptor without a checksum.
const withoutOne = (library, text, secret) => {
  const { value } = tried(() => library.descriptor.checksum(text));
  const said = [DESCRIPTOR.none, ...(value ? [DESCRIPTOR.wouldBe(value)] : []), ...(secret.warnings ? [] : [DESCRIPTOR.seen])];
  return { tone: 'other', verdict: OTHER.descriptor.verdict, said, ...secret };
};

// One with a private key is warned of, and not shown.
const secretOf = (text) =>
  (withinOf(text) ? { tone: 'warning', verdict: OTHER.descriptorSecret, warnings: [WARNINGS.wallet], isSecret: true } : {});

/** What is said of a text that begins as descriptors do. */
export const ofDescriptor = (library, text) => {
  const { value, refused } = tried(() => library.descriptor.check(text)), secret = secretOf(text), isSecret = secret.isSecret ?? false;
  if (value !== null && isSecret) return { said: [DESCRIPTOR.right], ...secret };
  if (value !== null) return { tone: 'right', verdict: DESCRIPTOR.valid, said: [DESCRIPTOR.tested, DESCRIPTOR.seen], facts: [], text };
  if (refused.code === 'NO_DESCRIPTOR_CHECKSUM' && !text.slice(-END).includes('#')) return withoutOne(library, text, secret);
  const { value: found } = tried(() => library.descriptor.mend(text));
  if (!found) return { tone: 'other', verdict: OTHER.descriptor.verdict, said: [DESCRIPTOR.tooLong], ...secret };
  const offers = found.map(offerOf(Array.from(text), isSecret));
  if (offers.length) return mended(offers, [DESCRIPTOR.wrong]);
  if (isSecret) return { said: [DESCRIPTOR.wrong, DESCRIPTOR.nothing], ...secret };
  if (!DESCRIPTOR_NAMES.test(text)) return foreign();
  return unmended({ text, unread: [] }, DESCRIPTOR.name, [NONE.found, DESCRIPTOR.wrong, DESCRIPTOR.nothing], false);
};
