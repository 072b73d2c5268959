// What the page says of several codex32 strings: what each is, whether they suffice, and what does not belong together.
import { asciiLower } from '../src/reasons.js';
import { SECRET_INDEX, partsOf } from './codex32.js';
import { CAUTION, SET, STRING, WARNINGS } from './sentences.js';
import { tried } from './tried.js';

// ---- what each string is

// A string that was put in: what is said of it alone, and where it can be used, its text and parts.
const stringOf = (library, found, place) => {
  const it = { place, found, text: null, parts: null, isMended: false };
  if (!found.isSecret || found.offers?.length > 1) return it;
  const text = asciiLower(found.offers?.[0].text ?? found.text), { parts } = partsOf(library, text);
  return { ...it, text, parts, isMended: found.tone === 'mended' };
};

const isSecretItself = ({ parts }) => parts.shareIndex === SECRET_INDEX;

const placesOf = (strings) => strings.map(({ place }) => place);

const titleOf = (it) => {
  if (!it.parts) return SET.unread(it.place);
  return SET.titleOf(it.place, isSecretItself(it) ? null : it.parts.shareIndex);
};

// How a string is shown: a right one by what it is, another as it would be alone. `remarks` are on those of the set.
const shownOf = (it, remarks) => {
  const { parts, isMended, found: { verdict: headline, offers, text, marked, said: own } } = it;
  const title = titleOf(it), said = [...(parts ? [STRING.facts(parts)] : own), ...remarks];
  if (!parts) return { title, tone: 'wrong', headline, text, marked, said };
  if (!isMended) return { title, tone: 'right', said };
  return { title, tone: 'mended', headline, offers: offers.map((offer) => ({ ...offer, said: [] })), said };
};

// ---- which of them belong together

const PARTS = ['threshold', 'identifier', 'length'];
const keyOf = ({ parts }) => PARTS.map((part) => parts[part]).join(' ');

// The strings of the set that most belong to, the first of equals, and the others.
const setOf = (strings) => {
  const sizes = new Map();
  for (const it of strings) sizes.set(keyOf(it), (sizes.get(keyOf(it)) ?? 0) + 1);
  const most = [...sizes.keys()].find((key) => sizes.get(key) === Math.max(...sizes.values()));
  return { set: strings.filter((it) => keyOf(it) === most), others: strings.filter((it) => keyOf(it) !== most) };
};

const otherSaid = (it, first) => {
  const part = PARTS.find((one) => first.parts[one] !== it.parts[one]);
  return SET.isOther(first.place, part, it.parts[part], first.parts[part]);
};

// What is said of strings that have the share index of one before them, and of those that are of another set.
const remarksOn = (set, others) => {
  const firstOf = (it) => set.find(({ parts }) => parts.shareIndex === it.parts.shareIndex);
  const again = set.filter((it) => firstOf(it) !== it);
  const isSame = (it) => it.text === firstOf(it).text;
  const remark = (of) => (it) => ({ it, first: firstOf(it), said: of(it) });
  const clashSaid = (it) => SET.isClash(firstOf(it).place);
  return {
    shares: set.filter((it) => firstOf(it) === it),
    clashes: again.filter((it) => !isSame(it)).map(remark(clashSaid)),
    same: again.filter(isSame).map(remark((it) => SET.isSame(firstOf(it).place))),
    strange: others.map(remark((it) => otherSaid(it, set[0]))),
  };
};

// ---- what they give

const textsOf = (shares) => shares.map(({ text }) => text);

// Whether shares agree. The first of them is derived again, and not the secret.
const agree = (library, shares) =>
  tried(() => library.codex32.derive(textsOf(shares), shares[0].parts.shareIndex)).value !== null;

// The one share without which the others agree, where enough of them are left to tell.
const oddOne = (library, shares, wanted) => {
  if (shares.length < wanted + 2) return null;
  const found = shares.filter((it) => agree(library, shares.filter((other) => other !== it)));
  return found.length === 1 ? found[0] : null;
};

const mendedSaid = (shares) => {
  const mended = shares.filter(({ isMended }) => isMended);
  return mended.length === 0 ? [] : [SET.mended(placesOf(mended))];
};

const ofClash = ([{ it, first }]) => {
  const verdict = SET.clash(first.place, it.place, it.parts.shareIndex);
  return { tone: 'wrong', verdict, said: [SET.oneOfTwo, ...mendedSaid([first, it])] };
};

const ofContradiction = (library, shares, wanted) => {
  const odd = oddOne(library, shares, wanted);
  if (odd === null) return { tone: 'wrong', verdict: SET.contradict, said: [SET.someOther, ...mendedSaid(shares)] };
  const rest = shares.filter((it) => it !== odd);
  return { tone: 'wrong', verdict: SET.odd(odd.place), said: [SET.rest(rest.length), ...mendedSaid([odd])], secretOf: textsOf(rest) };
};

const toneOf = (shares) => (shares.some(({ isMended }) => isMended) ? 'mended' : 'right');

// Where the secret itself is among them. With the threshold 0 it is alone.
const ofSecret = (shares, wanted, secret) => {
  const missing = wanted + 1 - shares.length;
  const said = missing <= 0 ? [SET.spare(shares.length, wanted)] : shares.length > 1 ? [SET.together(missing)] : [];
  return { tone: toneOf([secret]), verdict: SET.itself(secret.place), said, secretOf: [secret.text] };
};

const ofEnough = (shares, wanted) => {
  const { length } = shares, said = [length > wanted ? SET.spare(length, wanted) : SET.noSpare(length)];
  return { tone: toneOf(shares), verdict: SET.enough(length), said, secretOf: textsOf(shares) };
};

// What strings of one set give, each with another share index.
const ofShares = (library, shares) => {
  const wanted = Math.max(shares[0].parts.threshold, 1), secret = shares.find(isSecretItself);
  const areEnough = shares.length >= wanted;
  if (areEnough && !agree(library, shares)) return ofContradiction(library, shares, wanted);
  if (secret) return ofSecret(shares, wanted, secret);
  if (areEnough) return ofEnough(shares, wanted);
  return { tone: 'open', verdict: SET.few(wanted - shares.length, wanted), said: [] };
};

const NOTHING = { tone: 'wrong', verdict: SET.none, said: [] };

const unreadSaid = (unread) => (unread.length === 0 ? [] : [SET.leftOut(placesOf(unread))]);

/** What is said of several codex32 strings; `ofText` says it of one. */
export const ofStrings = (library, texts, ofText) => {
  const all = texts.map((text, place) => stringOf(library, ofText(text), place));
  const read = all.filter(({ parts }) => parts), unread = all.filter(({ parts }) => !parts);
  const { set, others } = setOf(read), { shares, clashes, same, strange } = remarksOn(set, others);
  const found = read.length === 0 ? NOTHING : clashes.length ? ofClash(clashes) : ofShares(library, shares);
  const remarks = [...strange, ...same, ...clashes];
  const remarksOf = (one) => remarks.filter(({ it }) => it === one).map(({ said }) => SET.remark(SET.it, said));
  const left = [...strange, ...same].map(({ it, said }) => SET.remark(SET.name(it.place), said));
  const warnings = [...(read.some(({ isMended }) => isMended) ? [CAUTION] : []), WARNINGS.strings];
  const said = [...found.said, ...left, ...(read.length ? unreadSaid(unread) : [])];
  return { ...found, said, strings: all.map((it) => shownOf(it, remarksOf(it))), warnings, isSecret: true };
};
