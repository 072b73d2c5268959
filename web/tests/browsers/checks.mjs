// What is tested of each page, in each browser: its policy, what it sends, what runs in it, what can be read, how it looks.
import test from 'node:test';
import fs from 'node:fs';
import http from 'node:http';
import os from 'node:os';
import path from 'node:path';
import { pathToFileURL } from 'node:url';
import { createHash } from 'node:crypto';

// ---- the file

const between = (text, from, to) => text.slice(text.indexOf(from) + from.length, text.indexOf(to, text.indexOf(from)));
const hash = (text) => createHash('sha256').update(text).digest('base64');

/** The policy that stands in a page, and the one that allows its script and its style and nothing else. */
export const policiesOf = (source) => {
  const js = between(source, '<script>', '</script>'), css = between(source, '<style>', '</style>');
  return [
    between(source, 'Content-Security-Policy" content="', '">'),
    `default-src 'none'; script-src 'sha256-${hash(js)}' 'wasm-unsafe-eval'; style-src 'sha256-${hash(css)}'; base-uri 'none'; form-action 'none'; require-trusted-types-for 'script'; trusted-types 'none'`,
  ];
};

/** Words for another file, an address, or a place where something could be kept. */
export const NAMES_ANOTHER = /https?:|\/\/[a-z]+\.|<link|<img|<iframe|\bsrc=|\bhref=|innerHTML|localStorage|document\.cookie|location\.hash|history\./;

/** A copy of a page with one byte changed, and what is seen of it. */
export const withChanged = async (page, source, at, body) => {
  const folder = fs.mkdtempSync(path.join(os.tmpdir(), 'changed-'));
  const file = path.join(folder, 'index.html');
  const bytes = Buffer.from(source);
  bytes[at] ^= 1;
  fs.writeFileSync(file, bytes);
  try {
    await page.visit(pathToFileURL(file).href);
    await body();
  } finally {
    fs.rmSync(folder, { recursive: true });
  }
};

// ---- what leaves a page, and what runs in it

/** What a page tries to send to a server. */
export const LEAK = `
  const to = arguments[0];
  const tries = [() => fetch(to + 'fetch').catch(() => {}), () => { new Image().src = to + 'image'; }, () => navigator.sendBeacon(to + 'beacon', 'x'),
    () => { new WebSocket(to.replace('http', 'ws') + 'socket'); }, () => { new EventSource(to + 'events'); }, () => { const it = new XMLHttpRequest(); it.open('GET', to + 'xhr'); it.send(); },
    ...['iframe', 'script', 'img'].map((name) => () => { const it = document.createElement(name); it.src = to + name; document.body.append(it); }),
    () => { const it = document.createElement('link'); it.rel = 'stylesheet'; it.href = to + 'style'; document.head.append(it); },
    () => { const frame = document.createElement('iframe'), it = document.createElement('form'); frame.name = it.target = 'frame'; it.action = to + 'form'; document.body.append(frame, it); it.submit(); }];
  for (const one of tries) try { one(); } catch {}
  await new Promise((done) => setTimeout(done, 1500));
  return tries.length;`;

/** What a script within a page tries to run. */
export const RUN = `
  const run = [() => { const it = document.createElement('p'); it.setAttribute('onclick', 'window.ran = 1'); document.body.append(it); it.click(); },
    () => { const it = document.createElement('script'); it.textContent = 'window.ran = 1'; document.body.append(it); }, ...(arguments[0] ? [() => { eval('window.ran = 1'); }, () => { new Function('window.ran = 1')(); }, () => { setTimeout('window.ran = 1', 0); },
    () => { document.body.innerHTML = '<img src=x onerror="window.ran = 1">'; }] : [])];
  for (const one of run) try { one(); } catch {}
  await new Promise((done) => setTimeout(done, 300));
  return String(window.ran);`;

/** A server, with what was asked of it. It has an empty page without a policy, and `files` by their paths. */
export const withServer = async (body, files = {}) => {
  const hits = [];
  const server = http.createServer((request, response) => {
    hits.push(request.url);
    response.end(request.url === '/page' ? '<!doctype html><title>.</title><body>' : files[request.url] ?? '');
  });
  server.on('upgrade', (request, socket) => {
    hits.push(request.url);
    socket.destroy();
  });
  await new Promise((done) => server.listen(0, '127.0.0.1', done));
  try {
    await body(`http://127.0.0.1:${server.address().port}/`, hits);
  } finally {
    server.closeAllConnections();
    server.close();
  }
};

// ---- how a page looks

/** The elements of a kind whose text has too little contrast with its ground. */
export const CONTRAST = `
  const light = (color) => { const parts = color.match(/[\\d.]+/g).slice(0, 3).map((it) => it / 255).map((it) => it <= 0.04045 ? it / 12.92 : ((it + 0.055) / 1.055) ** 2.4); return 0.2126 * parts[0] + 0.7152 * parts[1] + 0.0722 * parts[2]; };
  const ground = (it) => { for (; it; it = it.parentElement) { const { backgroundColor: color } = getComputedStyle(it); if (!/, 0\\)|transparent/.test(color)) return color; } return 'rgb(255, 255, 255)'; };
  return [...document.querySelectorAll(arguments[0])].filter((it) => it.checkVisibility()).map((it) => {
    const [a, b] = [light(getComputedStyle(it).color), light(ground(it))].sort((x, y) => y - x);
    return { is: it.tagName + '.' + it.className, ratio: (a + 0.05) / (b + 0.05) };
  }).filter(({ ratio }) => ratio < 4.5);`;

const screens = process.env.PAGE_SCREENS;

/** Takes a screenshot where PAGE_SCREENS names a folder for it. */
export const pictured = async (page, name) => {
  if (!screens) return;
  fs.mkdirSync(screens, { recursive: true });
  fs.writeFileSync(path.join(screens, `${name}.png`), await page.screenshot());
};

/** A test in a browser, or word that it is not installed. */
export const inBrowser = (browser, body) => {
  if (!browser.program) {
    test(browser.name, { skip: `${browser.name} is not installed here, so the page was not tried in it: apt-get install ${browser.packageName}` }, () => {});
    return;
  }
  test(browser.name, { timeout: 600000 }, async (t) => {
    const page = await browser.open();
    t.diagnostic(page.version);
    try {
      await body(t, page);
    } finally {
      await page.stop();
    }
  });
};
