// The sheets of paper, one for each share: its text with numbered places, and what helps to mend it by hand.
import { ALPHABET } from '../src/reasons.js';
import { SHEET, SPLIT } from './sentences.js';
import { button, element, toggled, unspoken, whole } from './shown.js';

// The number of places in a row and in a group. Between groups is a gap.
const ROW = 16, GROUP = 4;

// Strings of more than 93 characters have the longer checksum.
const checksumOf = (length) => (length > 93 ? 15 : 13);

const columnOf = (place) => 1 + (place % ROW) + Math.floor((place % ROW) / GROUP);

// A character below the number of its place.
const cell = (place, isNumbered, character) => {
  const number = element('span', 'number', isNumbered ? String(place + 1) : '');
  const it = element('span', 'cell', number, element('span', 'letter', character));
  it.style.gridColumnStart = String(columnOf(place));
  return it;
};

const grid = (className, from, characters, isNumbered) =>
  unspoken(element('div', `grid ${className}`, ...characters.map((character, i) => cell(from + i, isNumbered(from + i), character))));

// The text in groups of four, and its checksum apart.
const textRows = (characters, end) => {
  const isFirst = (from) => (place) => place % GROUP === 0 || place === from;
  return [
    element('p', 'lead', SHEET.text(1, end)), grid('text', 0, characters.slice(0, end), isFirst(0)),
    element('p', 'lead', SHEET.checksum(end + 1, characters.length)), grid('text', end, characters.slice(end), isFirst(end)),
  ];
};

// An empty box for each place.
const boxes = (count, end) => {
  const row = (from, to) => grid('boxes', from, Array(to - from).fill(''), () => true);
  return [element('p', 'lead', SHEET.boxes), row(0, end), row(end, count), element('p', '', SHEET.mend)];
};

const heading = (text) => {
  const it = element('th', '', text);
  it.scope = 'row';
  return it;
};

// The alphabet in the order of the values, in two rows of sixteen.
const alphabet = () => {
  const values = Array.from(ALPHABET, (character, value) => ({ character, value: String(value) }));
  const row = (part, from) =>
    element('tr', part, heading(SHEET.rows[part]), ...values.slice(from, from + ROW).map((it) => element('td', '', it[part])));
  const rows = [0, ROW].flatMap((from) => [row('value', from), row('character', from)]);
  return [element('p', 'lead', SHEET.alphabet), element('table', 'alphabet', element('tbody', '', ...rows))];
};

const paper = ({ text, parts }, at, count) => {
  const characters = Array.from(text), end = characters.length - checksumOf(characters.length);
  return element('div', 'paper',
    element('p', '', `${SHEET.number(at, count)}. ${SHEET.facts(parts)}`), element('p', '', SHEET.wanted(count, parts.threshold)),
    ...textRows(characters, end), whole(text), ...boxes(characters.length, end), ...alphabet());
};

// On the screen a sheet is shown when it is asked for.
const shownButton = (sheetOf) => {
  const show = (it) => {
    const isShown = sheetOf().classList.toggle('shown');
    toggled(it, isShown, [SPLIT.show, SPLIT.hide]);
  };
  const it = button('show', show, SPLIT.show);
  it.setAttribute('aria-expanded', 'false');
  return it;
};

/** The sheets of shares, of which `does.print` prints one. */
export const sheetsOf = (shares, does) => shares.map((share, at) => {
  const { shareIndex, identifier } = share.parts;
  const controls = element('p', 'controls', shownButton(() => it), ' ', button('print', () => does.print(it), SPLIT.print));
  const it = element('section', 'sheet', element('h4', '', SHEET.title(shareIndex, identifier)), controls, paper(share, at, shares.length));
  return it;
});
