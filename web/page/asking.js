// What both pages do with what the library says: an answer whatever happens, and a secret behind a button.
import { secretSaid } from './codex32.js';
import { readerOf } from './lightning.js';
import { failed } from './saying.js';
import { PAGE } from './sentences.js';
import { shownAnswer, shownSecret, toggled } from './shown.js';
import { Stopped } from '../src/library.js';

/** What is asked of the library, whatever happens. No text stays in the memory of the modules. */
export const answered = (it, asked) => {
  try {
    return asked();
  } catch (error) {
    return failed(error instanceof Stopped ? PAGE.stopped : PAGE.fault(error));
  } finally {
    it.wipe();
  }
};

/** The secret is worked out when it is asked for, and nothing of it stays when it is hidden. `speak` tells it. */
export const revealing = (library, speak) => (it, room, texts) => {
  const isShown = it.getAttribute('aria-expanded') === 'false';
  const found = isShown ? answered(library, () => secretSaid(readerOf(library, texts[0]), texts)) : [];
  room.replaceChildren(...(Array.isArray(found) ? shownSecret(found) : shownAnswer(found, {})));
  toggled(it, isShown, [PAGE.show, PAGE.hide]);
  speak(isShown ? PAGE.isShown : PAGE.isHidden);
};
