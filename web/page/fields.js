// Fields, which the browser is asked not to complete, check, correct or keep.
import { element } from './shown.js';

/** Makes a field as high as what is in it. */
export const grown = (typed) => {
  typed.style.height = 'auto';
  typed.style.height = `${typed.scrollHeight + typed.offsetHeight - typed.clientHeight}px`;
};

const KEPT_OUT = { autocomplete: 'off', autocapitalize: 'none', autocorrect: 'off', spellcheck: 'false' };

const field = (name, id, attributes) => {
  const it = element(name, '');
  for (const [key, value] of Object.entries({ id, ...KEPT_OUT, ...attributes })) it.setAttribute(key, value);
  return it;
};

/** A field for a text of some lines, and one for a short text. */
export const textField = (id) => field('textarea', id, { rows: '2', dir: 'ltr' });
export const wordField = (id) => field('input', id, { type: 'text', dir: 'ltr', size: '8' });

/** A field of `choices`, each a value with the words for it, of which one is chosen. */
export const choiceField = (id, choices, chosen) => {
  const it = field('select', id, {});
  for (const [value, words] of choices) {
    const option = element('option', '', words);
    option.value = value;
    option.defaultSelected = value === chosen;
    it.append(option);
  }
  it.value = chosen;
  return it;
};

/** A field with its label above it, and what helps to fill it in between. */
export const labelled = (label, it, ...help) => {
  const name = element('label', '', label), said = help.map((sentence) => element('p', 'help', sentence));
  name.htmlFor = it.id;
  said.forEach((one, at) => { one.id = `${it.id}-help-${at + 1}`; });
  if (said.length) it.setAttribute('aria-describedby', said.map(({ id }) => id).join(' '));
  return element('div', 'field', name, ...said, it);
};
