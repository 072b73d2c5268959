// The page that splits a secret and recovers it, and forgets all when it is left.
import { watchNetwork } from './network.js';
import { recoverPart } from './recover.js';
import { failed } from './saying.js';
import { FORGET, PAGE, SHEET } from './sentences.js';
import { element, paragraphs, shownAnswer } from './shown.js';
import { splitPart } from './split.js';
import { library } from '../src/library.js';
import { compiled } from '../src/modules.js';

// The milliseconds after the last key until an answer is spoken.
const PAUSE = 700;

const byId = (id) => document.getElementById(id);

// What speaks a sentence at once, or after a pause if no other one comes meanwhile.
const speaker = (it) => {
  let timer;
  const speak = (sentence) => {
    clearTimeout(timer);
    it.textContent = sentence;
  };
  const speakLater = (sentence) => {
    clearTimeout(timer);
    timer = setTimeout(speak, PAUSE, sentence);
  };
  return { speak, speakLater };
};

// Prints one sheet, or all where it is null. In some browsers `print` returns before anything is printed.
const print = (sheet) => {
  const { body } = document, choose = (isChosen) => {
    body.classList.toggle('one', isChosen);
    sheet?.classList.toggle('chosen', isChosen);
  };
  choose(sheet !== null);
  window.addEventListener('afterprint', () => choose(false), { once: true });
  window.print();
};

// Empties an element. Its fields and texts are emptied first, since the browser may still hold them.
const empty = (it) => {
  for (const field of it.querySelectorAll('input, textarea')) field.value = '';
  const texts = document.createTreeWalker(it, NodeFilter.SHOW_TEXT);
  while (texts.nextNode()) texts.currentNode.data = '';
  it.replaceChildren();
};

const start = () => {
  const { modules, isLowered } = compiled();
  const it = library(...modules), room = byId('room'), forgotten = byId('forgotten'), does = { ...speaker(byId('spoken')), print };
  // Takes everything out of the page, and makes new fields.
  const renew = () => {
    does.speak('');
    document.body.classList.remove('one');
    it.wipe();
    empty(room);
    empty(forgotten);
    room.append(splitPart(it, does), recoverPart(it, does), element('p', 'no-sheet', SHEET.none));
  };
  const forget = () => {
    renew();
    forgotten.append(...paragraphs('', [FORGET.done, FORGET.kept]));
    forgotten.scrollIntoView({ block: 'center' });
    does.speak(`${FORGET.done} ${FORGET.kept}`);
  };
  byId('forget').addEventListener('click', forget);
  // This is no longer true once something is typed or made again.
  for (const event of ['input', 'click']) room.addEventListener(event, () => empty(forgotten));
  window.addEventListener('pagehide', renew);
  window.addEventListener('pageshow', ({ persisted }) => persisted && renew());
  byId('forget').textContent = FORGET.button;
  byId('forget').hidden = false;
  byId('memory').textContent = PAGE.memory[Number(isLowered)];
  renew();
  watchNetwork();
};

try {
  start();
} catch (error) {
  byId('room').replaceChildren(...shownAnswer(failed(PAGE.cannotRun(error)), {}));
}
