// Firefox without a window, by Marionette: its protocol of commands over a socket.
import fs from 'node:fs';
import net from 'node:net';
import path from 'node:path';
import { programOf, started, until } from './browser.mjs';

export const program = programOf('firefox-esr', 'firefox');
export const name = 'Firefox';
export const packageName = 'firefox-esr';

/** The devices that are narrower than its window has to be. */
export const narrow = [];

const PREFERENCES = {
  'marionette.port': 0, 'browser.shell.checkDefaultBrowser': false, 'browser.startup.page': 0,
  'browser.sessionstore.interval': 1000, 'app.update.auto': false, 'datareporting.policy.dataSubmissionEnabled': false, 'toolkit.telemetry.enabled': false,
  'network.captive-portal-service.enabled': false, 'network.connectivity-service.enabled': false,
};

// A message is its length in bytes, a colon, and as many bytes of JSON.
const messagesOf = (socket, take) => {
  let rest = Buffer.alloc(0);
  socket.on('data', (piece) => {
    rest = Buffer.concat([rest, piece]);
    for (let colon = rest.indexOf(58); colon > 0; colon = rest.indexOf(58)) {
      const end = colon + 1 + Number(rest.subarray(0, colon));
      if (rest.length < end) break;
      take(JSON.parse(rest.subarray(colon + 1, end)));
      rest = rest.subarray(end);
    }
  });
};

// Of a number of LZ4, as it begins and with the bytes that follow on it.
const numberAt = (bytes, from, begun) => {
  let at = from, sum = begun;
  for (let more = begun === 15; more; at++) {
    sum += bytes[at];
    more = bytes[at] === 255;
  }
  return { at, sum };
};

/** What stands in a file that the browser keeps: some are packed by LZ4, behind a name and a size. */
export const plain = (bytes) => {
  if (bytes.toString('latin1', 0, 8) !== 'mozLz40\0') return bytes;
  const out = Buffer.alloc(bytes.readUInt32LE(8));
  let end = 0;
  for (let from = 12; from < bytes.length;) {
    const token = bytes[from], own = numberAt(bytes, from + 1, token >> 4);
    end += bytes.copy(out, end, own.at, own.at + own.sum);
    from = own.at + own.sum;
    if (from >= bytes.length) break;
    const again = numberAt(bytes, from + 2, token & 15), back = bytes.readUInt16LE(from);
    for (let left = again.sum + 4; left > 0; left--, end++) out[end] = out[end - back];
    from = again.at;
  }
  return out;
};

const COLORS = { dark: 0, light: 1 };

/** A page of a new browser, which prefers light or dark. */
export const open = async (colors = 'light') => {
  const words = (folder) => {
    const lines = Object.entries({ ...PREFERENCES, 'layout.css.prefers-color-scheme.content-override': COLORS[colors] }).map(([key, value]) => `user_pref(${JSON.stringify(key)}, ${JSON.stringify(value)});\n`);
    fs.writeFileSync(path.join(folder, 'user.js'), lines.join(''));
    return ['--headless', '--marionette', '--no-remote', '--profile', folder];
  };
  const { folder, quit, stop } = started(program, words, ['ignore', 'ignore', 'ignore']);
  const file = path.join(folder, 'MarionetteActivePort');
  // It starts within minutes where other programs have the machine.
  const port = await until(() => fs.existsSync(file) && Number(fs.readFileSync(file, 'utf8')), 'port of Firefox', 300).catch(async (error) => {
    await stop();
    throw error;
  });
  const socket = net.connect(port, '127.0.0.1');
  const waiting = new Map();
  let count = 0;
  const hello = new Promise((done) => waiting.set('hello', done));
  messagesOf(socket, (message) => {
    if (!Array.isArray(message)) return waiting.get('hello')();
    const [, id, error, result] = message;
    const { resolve, reject } = waiting.get(id);
    waiting.delete(id);
    return error ? reject(new Error(error.message)) : resolve(result);
  });
  await hello;
  const call = (command, params = {}) => new Promise((resolve, reject) => {
    waiting.set(++count, { resolve, reject });
    const message = JSON.stringify([0, count, command, params]);
    socket.write(`${Buffer.byteLength(message)}:${message}`);
  });

  const { capabilities } = await call('WebDriver:NewSession', { capabilities: { alwaysMatch: {} } });
  const evaluate = async (body, ...given) => (await call('WebDriver:ExecuteAsyncScript', {
    script: `const given = [...arguments], done = given.pop(); (async function () { ${body} }).apply(null, given).then(done, (error) => done({ failed: String(error) }));`,
    args: given, sandbox: null,
  })).value;
  const pressed = (value) => call('WebDriver:PerformActions', { actions: [{ type: 'key', id: 'keys', actions: [{ type: 'keyDown', value }, { type: 'keyUp', value }] }] });

  return {
    evaluate, folder, version: `Firefox/${capabilities.browserVersion}`,
    async stop() {
      socket.destroy();
      await stop();
    },
    visit: (url) => call('WebDriver:Navigate', { url }),
    back: () => call('WebDriver:Back'),
    quit: () => quit(() => call('Marionette:Quit', { flags: ['eAttemptQuit'] })),
    /** The page printed to a file, on paper of that size in inches. */
    async pdf(width, height) {
      const centimetres = (inches) => 2.54 * inches;
      return Buffer.from((await call('WebDriver:Print', { page: { width: centimetres(width), height: centimetres(height) } })).value, 'base64');
    },
    /** The width is that of the window, and no less than Firefox allows, which is some 500 pixels. */
    async size(width, height) {
      await call('WebDriver:SetWindowRect', { width, height });
      await until(async () => Math.abs(await evaluate('return window.innerWidth;') - width) < 130, `window of ${width} pixels`, 10);
    },
    async type(text) {
      const { value: element } = await call('WebDriver:GetActiveElement');
      await call('WebDriver:ElementSendKeys', { id: Object.values(element)[0], text });
    },
    press: (key) => pressed({ Tab: '\ue004', Enter: '\ue007', ' ': ' ' }[key]),
    /** Puts in what was copied. */
    async paste() {
      const [control, v] = ['\ue009', 'v'];
      const actions = [['keyDown', control], ['keyDown', v], ['keyUp', v], ['keyUp', control]].map(([type, value]) => ({ type, value }));
      await call('WebDriver:PerformActions', { actions: [{ type: 'key', id: 'keys', actions }] });
    },
    async screenshot() {
      return Buffer.from((await call('WebDriver:TakeScreenshot', { full: true })).value, 'base64');
    },
  };
};
