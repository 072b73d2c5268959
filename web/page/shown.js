// An answer as elements of the page. Text only ever goes into the page as text.
import { PAGE } from './sentences.js';

const GROUP = 4;

export const element = (name, className, ...children) => {
  const it = document.createElement(name);
  if (className) it.className = className;
  it.append(...children);
  return it;
};

export const paragraphs = (className, sentences) => sentences.map((sentence) => element('p', className, sentence));

// No text of a user goes to a service that translates pages.
const untranslated = (it) => {
  it.translate = false;
  return it;
};

/** What a reader of the screen is told otherwise. */
export const unspoken = (it) => {
  it.setAttribute('aria-hidden', 'true');
  return untranslated(it);
};

export const button = (className, does, ...children) => {
  const it = element('button', className, ...children);
  it.type = 'button';
  it.addEventListener('click', () => does(it));
  return it;
};

// ---- a text in groups of four, with places

// A character in a cell of its own. What is not ASCII stands as a box: it might not be seen, or turn the line around.
const cell = (character, className) => {
  const shown = character === null ? '' : /^[!-~]$/.test(character) ? character : '□';
  return element(className && shown ? 'mark' : 'span', className, shown);
};

// A character of a mended text, above the one that it replaces. Below one that did not change nothing stands.
const mendedColumn = ({ from, to, isChanged }) =>
  element('span', 'column', cell(to, isChanged ? 'mended' : ''), cell(isChanged ? from : null, 'struck'));

const wrongColumn = ({ to, isChanged }) => element('span', 'column', cell(to, isChanged ? 'wrong' : ''));

// A group begins at each fourth place. What stands in no place belongs to the one behind it.
const groupsOf = (columns) => {
  const groups = [];
  columns.forEach((column, i) => {
    const isFirst = column.place % GROUP === 0 && columns[i - 1]?.place !== column.place;
    if (isFirst) groups.push([]);
    groups.at(-1).push(column);
  });
  return groups;
};

const group = (columns, column) =>
  element('span', 'group', element('span', 'number', String(columns[0].place + 1)),
    element('span', 'columns', ...columns.map(column)));

const rows = (columns, column) =>
  unspoken(element('div', 'rows', ...groupsOf(columns).map((it) => group(it, column))));

const columnsOf = (text, marked = []) =>
  Array.from(text, (to, place) => ({ to, place, isChanged: marked.includes(place) }));

// ---- an answer

/** The text itself, to be read out and copied. */
export const whole = (text) => element('p', 'unseen', untranslated(element('code', '', text)));

const copying = (text, does) => element('p', '', button('copy', (it) => does.copy(it, text), PAGE.copy));

// Warnings stand above the button that they are about, each in a block of its own.
const warned = (warnings) => paragraphs('caution', warnings);

/** Says in a button whether what it shows is shown now. */
export const toggled = (it, isShown, [show, hide]) => {
  it.setAttribute('aria-expanded', String(isShown));
  it.textContent = isShown ? hide : show;
};

// A text with a name, in groups of four.
const grouped = (text) => text.replace(/(.{4})(?=.)/g, '$1 ');
const shownFact = ({ name, text }) => element('p', 'fact', `${name} `, element('code', '', grouped(text)));

// Hexadecimal digits, which few want to read and nobody to hear unasked: all of them behind one button.
const shownFacts = (facts) => {
  if (facts.length === 0) return [];
  const room = element('div', 'facts', ...facts.map(shownFact));
  const it = button('bytes', () => {
    room.hidden = !room.hidden;
    toggled(it, !room.hidden, PAGE.facts);
  });
  room.hidden = true;
  toggled(it, false, PAGE.facts);
  return [element('p', '', it), room];
};

const shownChanges = (changes) => element('ul', 'changes', ...changes.map((it) => element('li', '', it)));

// A mended text. Where it has a button, the warnings are just above that, however long the text is. What is said of a secret
// stands below the button that shows it.
const shownOffer = (isAlone, { isSecret, warnings, secretOf }, title, does) => ({ headline, columns, changes, text, said, facts }) =>
  element('section', 'offer', ...(isAlone ? [] : [element(title, '', headline)]), rows(columns, mendedColumn), whole(text),
    ...(isSecret ? [] : [...warned(warnings), copying(text, does)]), shownChanges(changes),
    ...paragraphs('', secretOf ? [] : said), ...shownFacts(facts));

const shownText = ({ tone, text, marked, isSecret }, does) => {
  const shown = rows(columnsOf(text, marked), wrongColumn);
  if (tone !== 'right') return [shown];
  return [shown, whole(text), ...(isSecret ? [] : [copying(text, does)])];
};

const shownChoices = (choices, does) =>
  choices.map((text) => element('p', '', button('choice', () => does.choose(text), element('code', '', text))));

/** A string of a set: its title, and what is said of it. It has no button, since it is a secret. */
export const shownString = ({ title, tone, headline, said, text, marked, offers = [] }) =>
  element('section', 'string', element('h3', `verdict ${tone}`, title), ...paragraphs('', headline ? [headline] : []),
    ...(text === undefined ? [] : [rows(columnsOf(text, marked), wrongColumn)]),
    ...offers.flatMap(({ columns, changes, text: mended }) => [rows(columns, mendedColumn), whole(mended), shownChanges(changes)]),
    ...paragraphs('', said));

/** A secret, of which each text has a name. */
export const shownSecret = (parts) => parts.flatMap(({ name, text }) =>
  [element('p', '', name), ...(text === null ? [] : [rows(columnsOf(text), wrongColumn), whole(text)])]);

/** A button that shows a secret behind it, and hides it again. */
export const shownButton = (texts, does) => {
  const room = element('div', 'secret'), it = button('reveal', () => does.reveal(it, room, texts), PAGE.show);
  it.setAttribute('aria-expanded', 'false');
  return [element('p', '', it), room];
};

// A part of a link, as it would be alone below a title.
const shownPart = (does) => ({ title, ...part }) =>
  element('section', 'part', element('p', 'title', title), ...shownAnswer({ notes: [], ...part }, does, 'h3'));

/**
 * An answer as elements; `does` has what the buttons do: `copy` a text, `choose` one for the field, and `reveal` the secret
 * that strings give. The verdict is a title of that level.
 */
export const shownAnswer = (answer, does, title = 'h2') => {
  const { tone, verdict, notes, said, text, facts = [], offers = [], choices = [], strings = [], parts = [], secretOf } = answer;
  const isSet = strings.length > 0, { warnings = [], isSecret } = answer, below = title === 'h2' ? 'h3' : 'h4';
  return [
    element(title, `verdict ${tone}`, verdict),
    ...(offers.length > 0 && !isSecret ? [] : warned(warnings)),
    ...(text === undefined ? [] : shownText(answer, does)),
    ...offers.map(shownOffer(offers.length === 1, { isSecret, warnings, secretOf }, below, does)),
    ...paragraphs('', isSet ? said : []),
    ...(secretOf ? shownButton(secretOf, does) : []),
    ...paragraphs('', secretOf ? offers.flatMap((it) => it.said) : []),
    ...paragraphs('', isSet ? [] : said),
    ...shownFacts(facts),
    ...strings.map(shownString),
    ...parts.map(shownPart(does)),
    ...shownChoices(choices, does),
    ...paragraphs('note', notes),
  ];
};

/** An answer as one text, to be spoken. */
export const spoken = ({ verdict, notes = [], said, offers = [], strings = [], parts = [], warnings = [] }) => {
  const offered = offers.flatMap((it) => [it.headline, ...it.changes, ...it.said]);
  const each = strings.map(({ title, headline, said: more }) => [`${title}.`, headline, ...more].filter(Boolean).join(' '));
  const named = parts.map(({ title, ...part }) => `${title}: ${spoken(part)}`);
  const all = [verdict, ...warnings, ...offered, ...said, ...each, ...named, ...notes];
  return [...new Set(all)].join(' ');
};
