// The part of the page that splits a secret.
import { answered } from './asking.js';
import { choiceField, grown, labelled, textField, wordField } from './fields.js';
import { networkNote } from './network.js';
import { SPLIT } from './sentences.js';
import { sheetsOf } from './sheets.js';
import { button, element, paragraphs, shownAnswer, spoken } from './shown.js';
import { NEW, OWN, secretTyped, split } from './splitting.js';

const THRESHOLDS = { least: 2, most: 9, first: '2' };
const COUNTS = { least: 2, most: 31, first: '3' };

const numbers = ({ least, most }) => Array.from({ length: most - least + 1 }, (_, i) => [String(least + i), String(least + i)]);
const numberField = (id, of) => choiceField(id, numbers(of), of.first);

// The operating system's random bytes, or an error.
const random = (bytes) => crypto.getRandomValues(bytes);

// The fields, and what they say.
const fields = () => {
  const kind = choiceField('kind', Object.entries(SPLIT.kinds), NEW[0]), secret = textField('secret');
  const threshold = numberField('threshold', THRESHOLDS), count = numberField('count', COUNTS), identifier = wordField('identifier');
  const own = labelled(SPLIT.own, secret, SPLIT.ownHelp);
  own.hidden = true;
  kind.addEventListener('change', () => { own.hidden = kind.value !== OWN; });
  secret.addEventListener('input', () => grown(secret));
  const all = [
    labelled(SPLIT.kind, kind), own, element('div', 'numbers', labelled(SPLIT.threshold, threshold), labelled(SPLIT.count, count)),
    labelled(SPLIT.identifier, identifier, SPLIT.identifierHelp),
  ];
  const said = () => ({
    kind: kind.value, secret: secret.value, threshold: Number(threshold.value), count: Number(count.value), identifier: identifier.value,
  });
  return { all, secret, said };
};

// The shares that were made, with what is to be known before they are shown or printed.
const shownShares = (shares, { kind, threshold, count }, does) => [
  element('h3', 'verdict right', SPLIT.made(count, threshold)),
  ...paragraphs('', [SPLIT.tried, kind === OWN ? SPLIT.test : SPLIT.shown, SPLIT.apart]),
  ...paragraphs('caution', [SPLIT.seen, SPLIT.printed]),
  element('p', 'controls', button('print-all', () => does.print(null), SPLIT.printAll)),
  ...sheetsOf(shares, does),
];

/** The part that splits a secret: `does` has what prints a sheet, or all, and what speaks a sentence. */
export const splitPart = (library, does) => {
  const { all, secret, said } = fields(), problem = element('div', 'problem'), made = element('div', 'made');
  const complain = (wrong) => {
    problem.replaceChildren(...(wrong ? shownAnswer({ notes: [], ...wrong }, {}, 'h3') : []));
    does.speak(wrong ? spoken(wrong) : '');
  };
  const make = (it) => {
    const wishes = said(), found = answered(library, () => split(library, random, wishes));
    complain(found.shares ? null : found.wrong ?? found);
    if (!found.shares) return;
    made.replaceChildren(...shownShares(found.shares, wishes, does));
    it.textContent = SPLIT.makeOthers;
    does.speak(SPLIT.made(wishes.count, wishes.threshold));
  };
  // Seed words are warned of before any button is pressed.
  secret.addEventListener('input', () => {
    const { wrong } = secretTyped(secret.value);
    complain(wrong?.tone === 'warning' ? wrong : null);
  });
  const title = element('h2', '', SPLIT.title);
  return element('section', 'split', title, ...all, problem, networkNote(), button('make', make, SPLIT.make), made);
};
