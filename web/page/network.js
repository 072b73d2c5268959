// What the browser reports of the network, and whether the page was opened from a disk.
import { NETWORK } from './sentences.js';
import { element, paragraphs } from './shown.js';

// Files are opened by the second of these on Android.
const isFromDisk = () => ['file:', 'content:'].includes(location.protocol);

const cautions = () => [...(navigator.onLine ? [NETWORK.online] : []), ...(isFromDisk() ? [] : [NETWORK.loaded])];

const filled = (it) => {
  const facts = it.classList.contains('whole') && !navigator.onLine ? [NETWORK.offline] : [];
  it.replaceChildren(...paragraphs('caution', cautions()), ...paragraphs('', facts));
  return it;
};

/** A warning above a button, empty where there is nothing to warn of. */
export const networkNote = () => filled(element('div', 'network'));

/** Keeps all notes on the network up to date. */
export const watchNetwork = () => {
  const show = () => document.querySelectorAll('.network').forEach(filled);
  for (const event of ['online', 'offline']) window.addEventListener(event, show);
  show();
};
