// What the page says of a confidential address of Liquid.
import { asciiLower } from '../src/reasons.js';
import { columnsOf, mendingOf } from './pair.js';
import { faultsOf, inCaseOf, readingOf, unreadSaid } from './reading.js';
import { mended, refusal, unmended } from './saying.js';
import { LIQUID, NONE } from './sentences.js';
import { tried } from './tried.js';
import { hex } from './words.js';

const CONFIDENTIAL = /^(lq|el|tlq)1/i;
const NETWORKS = { lq: 'Liquid', el: 'a local Liquid network', tlq: 'the Liquid test network' };

/** Whether a text begins as confidential addresses do. */
export const isConfidential = (text) => CONFIDENTIAL.test(text);

// The most characters that are found which cannot be read.
const MOST_UNREAD = 6;

const factsOf = ({ key, program }) => [{ name: LIQUID.key, text: hex(key) }, { name: LIQUID.program(program.length), text: hex(program) }];

const offerOf = (library, it, found) => {
  const text = inCaseOf(it.text, found), { value } = tried(() => library.liquid.decode(text));
  if (!value) return [];
  const columns = columnsOf(it.characters, Array.from(text)), mending = mendingOf(columns);
  const faults = faultsOf(it, MOST_UNREAD);
  return [{ ...mending, columns, text, said: [LIQUID.mended(mending.count)], facts: factsOf(value), isAddress: true, isSecret: false, faults }];
};

/** What is said of a text that begins as confidential addresses do. */
export const ofLiquid = (library, text) => {
  const { value, refused } = tried(() => library.liquid.decode(text));
  if (value) return { tone: 'right', verdict: LIQUID.valid(NETWORKS[asciiLower(value.hrp)]), said: [LIQUID.tested], facts: factsOf(value), text };
  if (refused.code === 'UNSUPPORTED_VERSION') {
    const { verdict, said } = LIQUID.otherVersion;
    return { tone: 'other', verdict, said, text, marked: [] };
  }
  const it = readingOf(text, '0'), known = it.unread.length <= MOST_UNREAD ? tried(() => library.liquid.correct(it.filled, it.unread)) : {};
  const offers = known.value ? offerOf(library, it, known.value.text) : [], faults = faultsOf(it, MOST_UNREAD);
  if (offers.length) return mended(offers, it.unread.length || faults.length ? faults : [LIQUID.wrong]);
  const seen = [...faults, ...unreadSaid(it)];
  if (refused.code !== 'WRONG_CHECKSUM' && seen.length === 0) return refusal(text, refused, [], [], [NONE.isWrong(LIQUID.name)]);
  return unmended(it, LIQUID.name, [NONE.found, ...(seen.length ? seen : [LIQUID.wrong]), LIQUID.nothing], it.unread.length < MOST_UNREAD);
};
