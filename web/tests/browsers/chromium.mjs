// Chromium without a window, by its protocol over a pipe.
import { programOf, started, until } from './browser.mjs';

export const program = programOf('chromium', 'chromium-browser', 'google-chrome');
export const name = 'Chromium';
export const packageName = 'chromium';

/** The devices that are narrower than its window has to be. */
export const narrow = [['small telephone', 320]];

// Messages end with a zero byte.
const messagesOf = (stream, take) => {
  let rest = '';
  stream.setEncoding('utf8').on('data', (piece) => {
    const messages = (rest + piece).split('\0');
    rest = messages.pop();
    messages.forEach((message) => take(JSON.parse(message)));
  });
};

/** What stands in a file that the browser keeps. */
export const plain = (bytes) => bytes;

/** A page of a new browser, which prefers light or dark. */
export const open = async (colors = 'light') => {
  const words = (folder) => ['--headless=new', '--no-sandbox', '--disable-gpu', '--disable-dev-shm-usage', '--no-first-run', '--disable-extensions',
    '--disable-background-networking', '--disable-component-update', '--remote-debugging-pipe', `--user-data-dir=${folder}`, 'about:blank'];
  const { folder, child, quit, stop } = started(program, words, ['ignore', 'ignore', 'ignore', 'pipe', 'pipe']);
  const waiting = new Map(), listeners = [];
  let count = 0, session;
  messagesOf(child.stdio[4], ({ id, result, error, method, params }) => {
    if (id === undefined) return listeners.forEach((take) => take(method, params));
    const { resolve, reject } = waiting.get(id);
    waiting.delete(id);
    return error ? reject(new Error(`${error.message} ${error.data ?? ''}`)) : resolve(result);
  });
  const call = (method, params = {}) => new Promise((resolve, reject) => {
    waiting.set(++count, { resolve, reject });
    child.stdio[3].write(`${JSON.stringify({ id: count, method, params, ...(session && { sessionId: session }) })}\0`);
  });

  const { targetId } = await call('Target.createTarget', { url: 'about:blank' });
  session = (await call('Target.attachToTarget', { targetId, flatten: true })).sessionId;
  const requests = [], logged = [];
  listeners.push((method, params) => {
    if (method === 'Network.requestWillBeSent') requests.push(params.request.url);
    if (method === 'Log.entryAdded') logged.push(params.entry.text);
    if (method === 'Runtime.exceptionThrown') logged.push(params.exceptionDetails.exception?.description ?? params.exceptionDetails.text);
  });
  for (const domain of ['Page', 'Runtime', 'Network', 'Log']) await call(`${domain}.enable`);
  await call('Emulation.setEmulatedMedia', { features: [{ name: 'prefers-color-scheme', value: colors }] });

  const evaluate = async (body, ...given) => {
    const expression = `(async function () { ${body} }).apply(null, ${JSON.stringify(given)})`;
    const how = { awaitPromise: true, returnByValue: true, allowUnsafeEvalBlockedByCSP: false };
    const { result, exceptionDetails } = await call('Runtime.evaluate', { expression, ...how });
    if (exceptionDetails) throw new Error(exceptionDetails.exception?.description ?? exceptionDetails.text);
    return result.value;
  };

  return {
    stop, requests, logged, evaluate, folder,
    version: (await call('Browser.getVersion')).product,
    async visit(url) {
      const loaded = new Promise((done) => listeners.push((method) => method === 'Page.loadEventFired' && done()));
      await call('Page.navigate', { url });
      await loaded;
    },
    async size(width, height) {
      await call('Emulation.setDeviceMetricsOverride', { width, height, deviceScaleFactor: 1, mobile: width < 600 });
    },
    /** Goes back to the page before this one. */
    async back() {
      const { currentIndex, entries } = await call('Page.getNavigationHistory');
      await call('Page.navigateToHistoryEntry', { entryId: entries[currentIndex - 1].id });
      await until(async () => (await evaluate('return [location.href, document.readyState].join();').catch(() => '')) === `${entries[currentIndex - 1].url},complete`, 'page before', 10);
    },
    quit: () => quit(() => call('Browser.close')),
    /** Shows the page as it is printed, or on a screen again. */
    async asPrinted(isPrinted) {
      await call('Emulation.setEmulatedMedia', { media: isPrinted ? 'print' : '', features: [{ name: 'prefers-color-scheme', value: colors }] });
    },
    /** The page printed to a file, on paper of that size in inches. */
    async pdf(paperWidth, paperHeight) {
      return Buffer.from((await call('Page.printToPDF', { paperWidth, paperHeight, preferCSSPageSize: false })).data, 'base64');
    },
    /** Runs a script in each page before its own. */
    async before(source) {
      const { identifier } = await call('Page.addScriptToEvaluateOnNewDocument', { source });
      return () => call('Page.removeScriptToEvaluateOnNewDocument', { identifier });
    },
    async type(text) {
      await call('Input.insertText', { text });
    },
    async press(key) {
      const code = { Tab: 9, Enter: 13, ' ': 32 }[key];
      const typed = key === 'Tab' ? {} : { text: key === 'Enter' ? '\r' : key };
      await call('Input.dispatchKeyEvent', { type: 'keyDown', key, code: key === ' ' ? 'Space' : key, windowsVirtualKeyCode: code, ...typed });
      await call('Input.dispatchKeyEvent', { type: 'keyUp', key, code: key === ' ' ? 'Space' : key, windowsVirtualKeyCode: code });
    },
    /** Puts in what was copied. */
    async paste() {
      for (const type of ['keyDown', 'keyUp']) await call('Input.dispatchKeyEvent', { type, key: 'v', code: 'KeyV', modifiers: 2, commands: type === 'keyDown' ? ['paste'] : [] });
    },
    async screenshot() {
      const { cssContentSize: { width, height } } = await call('Page.getLayoutMetrics');
      const clip = { x: 0, y: 0, width, height, scale: 1 };
      return Buffer.from((await call('Page.captureScreenshot', { format: 'png', clip, captureBeyondViewport: true })).data, 'base64');
    },
    async accessible() {
      const { nodes } = await call('Accessibility.getFullAXTree');
      return nodes.filter(({ ignored }) => !ignored).map(({ role, name: said }) => ({ role: role?.value, name: said?.value }));
    },
  };
};
