// Calls of the library that may be refused.
import { Refused } from '../src/library.js';

/** What a call returns, or why it is refused. */
export const tried = (call) => {
  try {
    return { value: call(), refused: null };
  } catch (refused) {
    if (!(refused instanceof Refused)) throw refused;
    return { value: null, refused };
  }
};
