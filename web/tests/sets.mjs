// Sets of codex32 strings as people put them in, and what the page says of each: a name, what is put in, the tone, what is
// said, the title of each string without its number, and the secret where there is one. The shares are those of BIP-93.
export const NAME = {
  a: 'ms12namea320zyxwvutsrqpnmlkjhgfedcaxrpp870hkkqrm', c: 'ms12namecacdefghjklmnpqrstuvwxyz023ftr2gdzmpy6pn',
  d: 'ms12namedll4f8jlh4e5vdvuldlfxu2jhdnlsm97xvenrxeg', s: 'ms12names6xqguzttxkeqnjsjzv4jv3nz5k3kwgsphuh6evw',
};
export const CASH = {
  s: 'ms13cashsllhdmn9m42vcsamx24zrxgs3qqjzqud4m0d6nln', a: 'ms13casha320zyxwvutsrqpnmlkjhgfedca2a8d0zehn8a0t',
  c: 'ms13cashcacdefghjklmnpqrstuvwxyz023949xq35my48dr', d: 'ms13cashd0wsedstcdcts64cd7wvy4m90lm28w4ffupqs7rm',
  e: 'ms13casheekgpemxzshcrmqhaydlp6yhms3ws7320xyxsar9', f: 'ms13cashf8jh6sdrkpyrsp5ut94pj8ktehhw2hfvyrj48704',
};
export const SECRET = CASH.s;

/** Two long strings of one set, and what they give. */
export const LONG = [
  'ms12l0ngaqvpsxqcrqvpsxqcrqvpsxqcrqvpsxqcrqvpsxqcrqvpsxqcrqvpsxqcrqvpsxqcrqvpsxqcrqvpsxqcrqvpsxqcrqvpsxqcrqvpsxqck5k6qca6gc4cs2j',
  'ms12l0ngcq5zs2pg9q5zs2pg9q5zs2pg9q5zs2pg9q5zs2pg9q5zs2pg9q5zs2pg9q5zs2pg9q5zs2pg9q5zs2pg9q5zs2pg9q5zs2pg9q5zs2pgy83kh78rzgn6dnn',
];
const LONG_SECRET = 'ms12l0ngsq6asdnmjq6asdnmjq6asdnmjq6asdnmjq6asdnmjq6asdnmjq6asdnmjq6asdnmjq6asdnmjq6asdnmjq6asdnmjq6asdnmjq6asdnm6t53pfyljmyht0p';

// Strings with right checksums that are none of those.
const OTHER_G = 'ms13cashgpyysjzgfpyysjzgfpyysjzgfpy6xm9zf2lenqdk', OTHER_A = 'ms13cashapyysjzgfpyysjzgfpyysjzgfpyvllpftsg3xjqg';
const LONGER = 'ms13cashhpyysjzgfpyysjzgfpyysjzgfpyysdf65pfgrug555', NAMED = 'ms13namehpyysjzgfpyysjzgfpyysjzgfpyfufcpt78u6d83';
const ALONE = 'ms10testsxxxxxxxxxxxxxxxxxxxxxxxxxx4nzvca9cmczlw', OTHER_ALONE = 'ms10testspyysjzgfpyysjzgfpyysjzgfpydtws6mjwaepc5';

/** Some shares, each on a line of its own. */
export const strings = (set, indices) => Array.from(indices, (index) => set[index]).join('\n');

const put = (text, ...changes) =>
  changes.reduce((it, [place, character]) => it.slice(0, place) + character + it.slice(place + 1), text);
const grouped = (text) => text.replace(/(....)(?=.)/g, '$1 ');
const share = (...indices) => indices.map((it) => `share “${it}”`);
const lines = (...texts) => texts.join('\n');

const THREE = /^These three shares belong together and recover the secret\. Nothing checks them yet: a share of another secret, or a wrong correction, would give another secret unnoticed\. A fourth share would reveal a mistake\./;
const ITSELF = 'the secret itself', UNREAD = 'cannot be read';

export const SETS = [
  ['two of three', strings(CASH, 'ac'), 'open', /^One more share is needed: the threshold is 3\.$/, share('a', 'c'), null],
  ['three of three', strings(CASH, 'acd'), 'right', THREE, share('a', 'c', 'd'), SECRET],
  ['four of three', strings(CASH, 'facd'), 'right', /^These four shares belong together and recover the secret\. All four agree, and three would be enough\.$/, share('f', 'a', 'c', 'd'), SECRET],
  ['beside one another', strings(CASH, 'acd').replaceAll('\n', ' '), 'right', THREE, share('a', 'c', 'd'), SECRET],
  ['with commas', strings(CASH, 'acd').replaceAll('\n', ', '), 'right', THREE, share('a', 'c', 'd'), SECRET],
  ['without a space', strings(CASH, 'acd').replaceAll('\n', ''), 'right', THREE, share('a', 'c', 'd'), SECRET],
  ['in upper case', strings(CASH, 'acd').toUpperCase(), 'right', THREE, share('a', 'c', 'd'), SECRET],
  ['of both cases', lines(CASH.a.toUpperCase(), CASH.c, CASH.d), 'right', THREE, share('a', 'c', 'd'), SECRET],
  ['in groups', lines(...[CASH.a, CASH.c, CASH.d].map(grouped)), 'right', THREE, share('a', 'c', 'd'), SECRET],
  ['in groups on two lines each', lines(...[CASH.a, CASH.c, CASH.d].map((it) => `${grouped(it).slice(0, 29)}\n${grouped(it).slice(30)}`)), 'right', THREE, share('a', 'c', 'd'), SECRET],
  ['with numbers', lines(`1. ${CASH.a}`, `2. ${CASH.c}`, `Share 3: "${CASH.d}"`), 'right', /These words beside the strings were left out: “1”, “2”, “Share” and others\. The quotes or punctuation around it were left out\.$/, share('a', 'c', 'd'), SECRET],
  ['with words behind', lines(`${CASH.a} (kitchen)`, CASH.c, `${CASH.d} bank`), 'right', /These words beside the strings were left out: “\(kitchen\)” and “bank”\.$/, share('a', 'c', 'd'), SECRET],
  ['two of two', strings(NAME, 'dc'), 'right', /^These two shares belong together and recover the secret\./, share('d', 'c'), NAME.s],
  ['long ones', lines(...LONG), 'right', /^These two shares belong together and recover the secret\./, share('a', 'c'), LONG_SECRET],
  ['long ones on two lines each', lines(...LONG.map((it) => `${it.slice(0, 80)}\n${it.slice(80)}`)), 'right', /^These two shares belong together and recover the secret\./, share('a', 'c'), LONG_SECRET],
  ['long ones in groups on four lines each', lines(...LONG.map((it) => grouped(it).replace(/(.{39}) /g, '$1\n'))), 'right', /^These two shares belong together and recover the secret\./, share('a', 'c'), LONG_SECRET],

  // Damaged strings.
  ['one that is mended', lines(CASH.a, put(CASH.c, [10, 'q'], [20, '?']), CASH.d), 'mended', THREE, share('a', 'c', 'd'), SECRET],
  ['all mended', lines(put(CASH.a, [9, 'q'], [12, 'q'], [30, 'q'], [40, 'q']), put(CASH.c, ...[9, 12, 20, 21, 22, 23, 30, 47].map((it) => [it, '?'])), put(CASH.d, [20, 'o'])), 'mended', THREE, share('a', 'c', 'd'), SECRET],
  ['a mended one that others confirm', lines(put(CASH.a, [9, 'q']), CASH.c, CASH.d, CASH.e), 'mended', /All four agree, and three would be enough\.$/, share('a', 'c', 'd', 'e'), SECRET],
  ['wrong beginnings', lines(CASH.a, `msl${CASH.c.slice(3)}`, `rns1${CASH.d.slice(3)}`), 'mended', THREE, share('a', 'c', 'd'), SECRET],
  ['a missing beginning', lines(CASH.a, CASH.c.slice(3), CASH.d), 'mended', THREE, share('a', 'c', 'd'), SECRET],
  ['a long one that is mended', lines(put(LONG[0], [50, '?'], [51, '?'], [90, 'q']), LONG[1]), 'mended', /^These two shares belong together and recover the secret\./, share('a', 'c'), LONG_SECRET],
  ['one that nothing mends', lines(CASH.a, `${CASH.c.slice(0, 20)}qqqqqqqqq${CASH.c.slice(29)}`, CASH.d), 'open', /^One more share is needed: the threshold is 3\. String 2 is left out, since it cannot be corrected\.$/, [...share('a'), UNREAD, ...share('d')], null],
  ['two that nothing mends', lines(CASH.a, `${CASH.c.slice(0, 20)}qqqqqqqqq${CASH.c.slice(29)}`, CASH.d.slice(0, 47)), 'open', /^Two more shares are needed: the threshold is 3\. Strings 2 and 3 are left out, since they cannot be corrected\.$/, [...share('a'), UNREAD, UNREAD], null],
  ['none that is right', lines(CASH.a.slice(0, 46), CASH.d.slice(0, 47)), 'wrong', /^None of these strings is valid, and none can be corrected\.$/, [UNREAD, UNREAD], null],
  ['another one begun', lines(CASH.a, 'ms1'), 'open', /^Two more shares are needed: the threshold is 3\. String 2 is left out, since it cannot be corrected\.$/, [...share('a'), UNREAD], null],

  // What does not belong together.
  ['one of another set', lines(CASH.a, NAME.a, CASH.c, CASH.d), 'right', /String 2 is of another set than string 1: its threshold is 2, not 3\.$/, share('a', 'a', 'c', 'd'), SECRET],
  ['of another identifier', lines(CASH.a, CASH.c, NAMED), 'open', /^One more share is needed: the threshold is 3\. String 3 is of another set than string 1: its identifier is “name”, not “cash”\.$/, share('a', 'c', 'h'), null],
  ['of another length', lines(CASH.a, LONGER, CASH.c), 'open', /^One more share is needed: the threshold is 3\. String 2 is of another set than string 1: it has 50 characters, not 48\.$/, share('a', 'h', 'c'), null],
  ['the first of another set', lines(NAME.a, CASH.a, CASH.c, CASH.d), 'right', /String 1 is of another set than string 2: its threshold is 2, not 3\.$/, share('a', 'a', 'c', 'd'), SECRET],
  ['the same string twice', lines(CASH.a, CASH.c, CASH.a.toUpperCase()), 'open', /^One more share is needed: the threshold is 3\. String 3 is the same as string 1, and counts once\.$/, share('a', 'c', 'a'), null],
  ['a mended copy', lines(CASH.a, put(CASH.a, [10, '?']), CASH.c, CASH.d), 'right', /String 2 is the same as string 1, and counts once\.$/, share('a', 'a', 'c', 'd'), SECRET],
  ['one index twice', lines(CASH.a, CASH.c, OTHER_A, CASH.d), 'wrong', /^These strings contradict each other: string 1 and string 3 both have the share index “a”, but differ\. At most one of them is right\. Take the other one out\.$/, share('a', 'c', 'a', 'd'), null],
  ['one that contradicts', lines(CASH.a, CASH.c, CASH.d, OTHER_G), 'wrong', /^These strings contradict each other\. At least one of them is of another secret, or is wrong although its checksum is right\.$/, share('a', 'c', 'd', 'g'), null],
  ['one of five that contradicts', lines(CASH.a, OTHER_G, CASH.c, CASH.d, CASH.e), 'wrong', /^These strings contradict each other: string 2 does not agree with the others\. The other four agree and recover a secret\.$/, share('a', 'g', 'c', 'd', 'e'), SECRET],
  ['a mended one of five that contradicts', lines(CASH.a, put(OTHER_G, [20, '?']), CASH.c, CASH.d, CASH.e), 'wrong', /The other four agree and recover a secret\. String 2 was corrected, and the correction may be wrong\.$/, share('a', 'g', 'c', 'd', 'e'), SECRET],
  ['a mended one that contradicts', lines(CASH.a, put(OTHER_G, [20, '?']), CASH.c, put(CASH.d, [20, '?'])), 'wrong', /its checksum is right\. Strings 2 and 4 were corrected, and a correction may be wrong\.$/, share('a', 'g', 'c', 'd'), null],

  // The secret among them.
  ['the secret and a share', strings(CASH, 'as'), 'right', /^String 2 is the secret itself\. Two more shares are needed to see whether they belong together\.$/, [...share('a'), ITSELF], SECRET],
  ['the secret and all shares', strings(CASH, 'asce'), 'right', /^String 2 is the secret itself\. All four agree, and three would be enough\.$/, [...share('a'), ITSELF, ...share('c', 'e')], SECRET],
  ['the secret and shares of another one', lines(CASH.a, CASH.c, CASH.s, OTHER_G), 'wrong', /^These strings contradict each other\./, [...share('a', 'c'), ITSELF, ...share('g')], null],
  ['an unshared secret twice', lines(ALONE, ALONE), 'right', /^String 1 is the secret itself\. String 2 is the same as string 1, and counts once\.$/, [ITSELF, ITSELF], ALONE],
  ['two unshared secrets', lines(ALONE, OTHER_ALONE), 'wrong', /^These strings contradict each other: string 1 and string 2 both have the share index “s”/, [ITSELF, ITSELF], null],
  ['an unshared secret and a share', lines(ALONE, CASH.a), 'right', /^String 1 is the secret itself\. String 2 is of another set than string 1: its threshold is 3, not 0\.$/, [ITSELF, ...share('a')], ALONE],
];
