// The part of the page that recovers a secret of strings, which are put in one after another.
import { answered, revealing } from './asking.js';
import { ofAdded, ofString } from './collecting.js';
import { grown, labelled, textField } from './fields.js';
import { networkNote } from './network.js';
import { RECOVER } from './sentences.js';
import { button, element, paragraphs, shownAnswer, shownButton, shownString, spoken } from './shown.js';

const addButton = ({ tone, added }, add) =>
  element('p', '', button('add', () => add(added), tone === 'mended' ? RECOVER.addMended : RECOVER.add));

// What is said of the string in the field, with the button that adds it.
const shownTyped = (found, add) => {
  if (!found) return [];
  return [...shownAnswer({ notes: [], ...found }, {}, 'h3'), ...(found.added ? [networkNote(), addButton(found, add)] : [])];
};

const removable = (string, at, remove) => {
  const it = shownString(string);
  it.append(element('p', '', button('remove', () => remove(at), RECOVER.remove(at))));
  return it;
};

// What is said of all strings that were added, with the button that shows the secret where they give it.
const shownAdded = ({ tone, verdict, said, warnings = [], strings = [], secretOf }, does) => [
  element('h3', `verdict ${tone}`, verdict),
  ...paragraphs('', said),
  ...(secretOf ? [...paragraphs('caution', [...warnings, RECOVER.seen]), networkNote(), ...shownButton(secretOf, does)] : []),
  ...strings.map((it, at) => removable(it, at, does.remove)),
];

/** The part that recovers a secret: `does` has what speaks a sentence at once, and behind a pause. */
export const recoverPart = (library, { speak, speakLater }) => {
  const typed = textField('string'), answer = element('div', 'answer'), added = element('div', 'added'), texts = [];
  const showTyped = () => {
    const found = answered(library, () => ofString(library, typed.value));
    answer.replaceChildren(...shownTyped(found, add));
    grown(typed);
    speakLater(found ? spoken(found) : '');
  };
  const showAdded = () => {
    const found = texts.length ? answered(library, () => ofAdded(library, texts)) : null;
    added.replaceChildren(...(found ? shownAdded(found, { reveal: revealing(library, speak), remove }) : []));
    return found;
  };
  const add = (text) => {
    texts.push(text);
    typed.value = '';
    showTyped();
    speak(spoken(showAdded()));
    typed.focus();
  };
  const remove = (at) => {
    texts.splice(at, 1);
    const found = showAdded();
    speak(found ? spoken(found) : '');
    typed.focus();
  };
  typed.addEventListener('input', showTyped);
  return element('section', 'recover', element('h2', '', RECOVER.title), labelled(RECOVER.label, typed, RECOVER.help), answer, added);
};
