// The page: what is put into the field goes to answer.js, and what that says is shown.
import { answer } from './answer.js';
import { answered, revealing } from './asking.js';
import { copied } from './copy.js';
import { grown } from './fields.js';
import { failed } from './saying.js';
import { PAGE } from './sentences.js';
import { button, element, shownAnswer, spoken } from './shown.js';
import { library } from '../src/library.js';
import { compiled } from '../src/modules.js';

// So long after the last key the answer is spoken.
const PAUSE = 700;

// An address with one wrong character.
const EXAMPLE = 'bc1qw508d6qejxtdg4y5r3zarvaty0c5xw7kv8f3t4';

const byId = (id) => document.getElementById(id);

const example = (does) =>
  element('p', '', PAGE.example,
    button('choice', () => does.choose(EXAMPLE), element('code', '', EXAMPLE)));

const copy = async (it, text) => {
  it.textContent = await copied(text) ? PAGE.copied : PAGE.notCopied;
  byId('spoken').textContent = it.textContent;
};

const start = () => {
  const { modules, isLowered } = compiled();
  const it = library(...modules);
  const typed = byId('typed'), clear = byId('clear');
  let timer;
  const show = () => {
    const found = answered(it, () => answer(it, typed.value));
    byId('answer').replaceChildren(...(found ? shownAnswer(found, does) : [example(does)]));
    clear.hidden = typed.value === '';
    grown(typed);
    clearTimeout(timer);
    timer = setTimeout(() => { byId('spoken').textContent = found ? spoken(found) : ''; }, PAUSE);
  };
  const choose = (text) => {
    typed.value = text;
    show();
    typed.focus();
  };
  const speak = (sentence) => { byId('spoken').textContent = sentence; };
  const does = { copy, choose, reveal: revealing(it, speak) };
  typed.addEventListener('input', show);
  window.addEventListener('resize', () => grown(typed));
  clear.addEventListener('click', () => choose(''));
  byId('memory').textContent = PAGE.memory[Number(isLowered)];
  show();
};

try {
  start();
} catch (error) {
  byId('answer').replaceChildren(...shownAnswer(failed(PAGE.cannotRun(error)), {}));
}
