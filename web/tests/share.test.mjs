// The page for sharing in browsers: splitting, sheets of paper, recovering, and that it forgets all.
//
// PAGE_SCREENS names a folder for screenshots, to be looked at; without it there are none.
import test from 'node:test';
import assert from 'node:assert/strict';
import fs from 'node:fs';
import os from 'node:os';
import path from 'node:path';
import zlib from 'node:zlib';
import { fileURLToPath, pathToFileURL } from 'node:url';
import * as chromium from './browsers/chromium.mjs';
import * as firefox from './browsers/firefox.mjs';
import { until } from './browsers/browser.mjs';
import { CONTRAST, LEAK, NAMES_ANOTHER, RUN, inBrowser, pictured, policiesOf, withChanged, withServer } from './browsers/checks.mjs';
import { CASH, NAME } from './sets.mjs';

const FILE = fileURLToPath(new URL('../out/share.html', import.meta.url));
const PAGE = pathToFileURL(FILE).href;
const source = fs.readFileSync(FILE, 'utf8');

const HEX = '0f1e2d3c4b5a69788796a5b4c3d2e1f0', LONG = `${HEX}8899aabbccddeeff0011223344556677`;
const CASH_BYTES = 'ffeeddccbbaa99887766554433221100';
const WORDS = 'abandon ability able about above absent absorb abstract absurd abuse access accident';
const OWN = { kind: 'own', secret: HEX, threshold: '2', count: '3', identifier: 'test' };

const put = (text, ...changes) => changes.reduce((one, [place, character]) => one.slice(0, place) + character + one.slice(place + 1), text);
const DAMAGED = put(CASH.c, [10, 'q'], [20, '?']);

// All choices of this many.
const choices = (all, count) => {
  if (count === 0) return [[]];
  if (all.length < count) return [];
  const [first, ...rest] = all;
  return [...choices(rest, count - 1).map((others) => [first, ...others]), ...choices(rest, count)];
};

// ---- the file

test('the policy allows the script and the style that stand in the file, and nothing else', () => {
  const [policy, wanted] = policiesOf(source);
  assert.equal(policy, wanted);
  assert.ok(source.indexOf('Content-Security-Policy') < source.indexOf('<style>'));
});

test('the file names no other, no address, and no place where something could be kept', () => {
  assert.doesNotMatch(source, NAMES_ANOTHER);
  assert.doesNotMatch(source, /<form|sessionStorage|indexedDB|caches\.|pushState|replaceState|clipboard|execCommand|postMessage|window\.name/);
});

// ---- in a browser

const FILL = `
  for (const [id, value] of Object.entries(arguments[0])) {
    const it = document.getElementById(id);
    it.value = value;
    it.dispatchEvent(new Event(it.tagName === "SELECT" ? "change" : "input", { bubbles: true }));
  }`;
const CLICK = 'const it = document.querySelector(arguments[0]); it.focus(); it.click();';
const fill = (page, fields) => page.evaluate(FILL, fields);
const click = (page, what) => page.evaluate(CLICK, what);
const textOf = (page, what) => page.evaluate('return [...document.querySelectorAll(arguments[0])].filter((it) => it.checkVisibility()).map((it) => it.innerText.replace(/\\s+/g, " ").trim()).join(" ");', what);

const SHEETS = `return [...document.querySelectorAll(".sheet")].map((it) => {
  const all = (what) => [...it.querySelectorAll(what)], letters = (what) => all(what + " .letter").map((one) => one.textContent).join("");
  const [data, checksum] = all(".text");
  const lettersOf = (one) => [...one.querySelectorAll(".letter")].map((letter) => letter.textContent).join("");
  return {
    title: it.querySelector("h4").textContent, text: it.querySelector("code").textContent, isSeen: it.querySelector(".paper").checkVisibility(),
    data: lettersOf(data), checksum: lettersOf(checksum), numbers: all(".text .number").map((one) => one.textContent).filter(Boolean),
    boxes: all(".boxes .number").map((one) => one.textContent), empty: letters(".boxes"), alphabet: all(".alphabet .character td").map((one) => one.textContent).join(""),
    values: all(".alphabet .value td").map((one) => one.textContent), said: [...it.querySelectorAll("p")].map((one) => one.textContent).join(" "),
  };
});`;

// The sheets of shares that are made as the fields say.
const split = async (page, fields) => {
  await fill(page, fields);
  await click(page, '.make');
  return page.evaluate(SHEETS);
};
const splitTexts = async (page, fields) => (await split(page, fields)).map(({ text }) => text);

const add = async (page, text) => {
  await fill(page, { string: text });
  await click(page, '.add');
};

// What is shown of the secret that strings give: as a string, and its bytes in base 16.
const recovered = async (page, texts) => {
  for (const text of texts) await add(page, text);
  assert.equal(await page.evaluate('return document.querySelectorAll(".secret code").length;'), 0);
  await click(page, '.reveal');
  const shown = await page.evaluate('return [...document.querySelectorAll(".secret code")].map((it) => it.textContent);');
  for (const _ of texts) await click(page, '.remove');
  assert.equal(await page.evaluate('return document.querySelectorAll(".added *").length;'), 0);
  return shown;
};

// Which of some words stand anywhere in the document, or in a field.
const FOUND = `
  const page = document.documentElement.cloneNode(true);
  page.querySelectorAll("script").forEach((it) => it.remove());
  const values = [...document.querySelectorAll("input, textarea, select")].map((it) => it.value);
  const all = [page.outerHTML, page.textContent.replace(/\\s/g, ""), ...values].join("\\n").toLowerCase();
  return [...arguments[0].filter((it) => all.includes(it.toLowerCase())), ...[...document.querySelectorAll(".cell, .column, .sheet, .string, code")].map((it) => it.className)];`;

// What is kept beside the document.
const KEPT = `
  const sizes = [];
  for (const of of [() => localStorage.length, () => sessionStorage.length, async () => (await indexedDB.databases()).length, async () => (await caches.keys()).length]) {
    try { sizes.push(await of()); } catch { sizes.push(0); }
  }
  return [location.href, history.length, history.state, document.cookie, window.name, ...sizes];`;

const isOffline = (page, isIt) => page.evaluate('Object.defineProperty(navigator, "onLine", { configurable: true, get: () => !arguments[0] }); window.dispatchEvent(new Event(arguments[0] ? "offline" : "online"));'
  .replaceAll('arguments[0]', String(isIt)));

// The number of pages in a file, of which the objects may be packed.
const pagesIn = (pdf) => {
  const text = pdf.toString('latin1');
  const packed = [...text.matchAll(/stream\r?\n/g)].map(({ index, 0: { length } }) => {
    try {
      return zlib.inflateSync(pdf.subarray(index + length), { finishFlush: zlib.constants.Z_SYNC_FLUSH }).toString('latin1');
    } catch {
      return '';
    }
  });
  const count = (one) => (one.match(/\/Type\s*\/Page\b(?!s)/g) ?? []).length;
  return count(text) || packed.reduce((sum, one) => sum + count(one), 0);
};

// The elements whose text is read, and where warnings and a button stand.
const READ = 'h1, h2, h3, h4, header p, li, label, .help, main p, .caution, textarea, input, select, button, code, mark, .column span, .number, .letter, td, th, summary, footer p';
const PLACES = `
  const button = document.querySelector(arguments[0]), { top, bottom } = button.getBoundingClientRect();
  const warnings = [...document.querySelectorAll(arguments[1])].filter((it) => it.checkVisibility()).map((it) => it.getBoundingClientRect());
  return { top, bottom, above: warnings.map((it) => ({ top: it.top, bottom: it.bottom })) };`;

const WRONG = [
  [{ secret: '' }, /Type your secret first\./],
  [{ secret: HEX.slice(1) }, /31 hexadecimal digits stand here\. A secret of 16 bytes has 32 of them, and one of 32 bytes has 64\./],
  [{ secret: `${HEX}00` }, /34 hexadecimal digits stand here\./],
  [{ secret: put(HEX, [7, 'g']) }, /Character 8, “g”, is not a hexadecimal digit\. These are 0 to 9 and a to f\./],
  [{ secret: CASH.a }, /This begins like a codex32 string\. Put it in under “Recover a secret”\./],
  [{ threshold: '5', count: '4' }, /Four shares are too few: five are needed to recover the secret\./],
  [{ identifier: 'abcd' }, /Character 2 of the identifier, “b”, cannot stand there\./],
  [{ identifier: 'tes' }, /An identifier has four characters, and this one has three\./],
  [{ identifier: '<b>x' }, /Character 1 of the identifier, .*, cannot stand there\./],
];

const MISREAD = [
  ['bc1qw508d6qejxtdg4y5r3zarvary0c5xw7kv8f3t4', /This is not a codex32 string\. Those begin with ms1\./],
  [CASH.a.slice(0, 30), /characters/], [`${CASH.a}\n${CASH.c}`, /Several strings stand here\. Put them in one after another\./],
  [put(CASH.a, ...[9, 12, 15, 18, 22].map((place) => [place, 'q'])), /No correction was found\./],
  [WORDS, /These look like seed words\. Do not type them into any page\./],
  ['<img src=x onerror="window.ran=1">', /This is not a codex32 string\./],
];

const common = (browser) => async (t, page) => {
  await page.size(1280, 900);
  await page.visit(PAGE);

  await t.test('it runs from a disk, and says what it is used on', async () => {
    assert.match(await textOf(page, 'header'), /Use it only on a computer without network: Save this file, share\.html, and compare its SHA-256 .* Take it to a computer that has no network, and open it there from the disk\. When you are done, press “Forget all”/);
    assert.doesNotMatch(await textOf(page, '.network'), /not opened from a disk/);
  });
  await t.test('it warns while the browser reports a network, and says that its report can be wrong', async () => {
    await isOffline(page, false);
    const online = /^This browser reports a network connection\. Disconnect this computer before you type or make a secret\.$/;
    assert.match(await textOf(page, 'header .network'), online);
    assert.match(await textOf(page, '.split .network'), online);
    await isOffline(page, true);
    assert.match(await textOf(page, 'header .network'), /^This browser reports no network connection\. That can be wrong: check the cable and the wireless switch yourself\.$/);
    assert.equal(await textOf(page, '.split .network'), '');
    await isOffline(page, false);
    assert.match(await textOf(page, 'header .network'), online);
  });
  await t.test('it warns where it was not opened from a disk', () => withServer(async (address) => {
    await page.visit(`${address}share.html`);
    assert.match(await textOf(page, 'header .network'), /This page was not opened from a disk\. Save it, and open the copy on a computer without network\./);
    assert.match(await textOf(page, '.split .network'), /This page was not opened from a disk\./);
  }, { '/share.html': source }));

  for (const [kind, fields, bytes, size] of [
    ['a given secret of 16 bytes, two of three', OWN, HEX, 48], ['a given one of 32 bytes, three of four', { ...OWN, secret: LONG.toUpperCase(), threshold: '3', count: '4' }, LONG, 74],
    ['a new one of 16 bytes, two of four', { kind: '16', threshold: '2', count: '4', identifier: '' }, null, 48], ['a new one of 32 bytes, three of three', { kind: '32', threshold: '3', count: '3', identifier: '' }, null, 74],
  ]) {
    await t.test(`splits ${kind}, and recovers it from every choice of enough shares`, async () => {
      await page.visit(PAGE);
      const texts = await splitTexts(page, fields), threshold = Number(fields.threshold), found = new Set();
      assert.deepEqual(texts.map((it) => it.length), Array(Number(fields.count)).fill(size));
      assert.match(await textOf(page, '.made > h3'), threshold === texts.length ? /^Three shares are made\. All of them are needed/ : /^(?:Three|Four) shares are made\. Any (?:two|three) of them recover the secret\.$/);
      assert.match(await textOf(page, '.made > p'), /All of them together were tried, and gave the secret back\./);
      for (const some of choices(texts, threshold)) found.add((await recovered(page, some)).at(-1));
      assert.equal(found.size, 1);
      if (bytes) assert.deepEqual([...found], [bytes]);
      for (const few of choices(texts, threshold - 1)) {
        for (const text of few) await add(page, text);
        assert.match(await textOf(page, '.added > h3'), /^One more share is needed: the threshold is [23]\.$/);
        assert.equal(await page.evaluate('return document.querySelectorAll(".added .reveal").length;'), 0);
        for (const _ of few) await click(page, '.remove');
      }
    });
  }
  await t.test('new secrets, identifiers and shares are drawn anew each time', async () => {
    const seen = new Set(), names = new Set();
    for (let i = 0; i < 4; i++) {
      const texts = await splitTexts(page, { kind: '16', threshold: '2', count: '2', identifier: '' });
      texts.forEach((text) => seen.add(text.slice(9)));
      names.add(texts[0].slice(4, 8));
      seen.add((await recovered(page, texts)).at(-1));
    }
    assert.equal(seen.size, 12);
    assert.ok(names.size > 1);
    const [first, again] = [await splitTexts(page, OWN), await splitTexts(page, OWN)];
    assert.notDeepEqual(first, again);
  });
  await t.test('wrong fields have their sentences, and what was made before stays', async () => {
    await page.visit(PAGE);
    for (const [fields, sentence] of WRONG) {
      assert.deepEqual(await split(page, { ...OWN, ...fields }), []);
      assert.match(await textOf(page, '.problem'), sentence);
    }
    const texts = await splitTexts(page, OWN);
    assert.equal(await textOf(page, '.problem'), '');
    assert.deepEqual(await splitTexts(page, { ...OWN, secret: '00' }), texts);
    assert.match(await textOf(page, '.make'), /^Make other shares in place of these$/);
  });
  await t.test('seed words are warned of as they are typed, and not read', async () => {
    await page.visit(PAGE);
    await fill(page, { kind: 'own', secret: WORDS });
    assert.match(await textOf(page, '.problem'), /^These look like seed words\. Do not type them into any page\. Clear the field now\. Whoever sees these words can take what is in the wallet\./);
    await fill(page, { secret: HEX });
    assert.equal(await textOf(page, '.problem'), '');
    assert.match(await textOf(page, '.help'), /Seed words are not read here\./);
  });
  await t.test('the field for a secret is there only for one of your own', async () => {
    const isThere = () => page.evaluate('return document.getElementById("secret").checkVisibility();');
    assert.equal(await isThere(), true);
    await fill(page, { kind: '32' });
    assert.equal(await isThere(), false);
  });

  await t.test('strings that cannot be added have their sentences', async () => {
    await page.visit(PAGE);
    for (const [text, sentence] of MISREAD) {
      await fill(page, { string: text });
      assert.match(await textOf(page, '.answer'), sentence);
      assert.deepEqual(await page.evaluate('return [document.querySelectorAll(".add, .copy, .answer .reveal").length, String(window.ran), document.querySelectorAll("main img").length];'), [0, 'undefined', 0], text);
    }
  });
  await t.test('a mistyped share is corrected only as an offer, with a warning above the button, and is told in the set', async () => {
    await add(page, CASH.a);
    await fill(page, { string: DAMAGED });
    assert.match(await textOf(page, '.answer'), /^Character 11 should be c, not q\. The unreadable character 21 is .\. Compare this with the source, character by character, before you use it: a correction is a guess\./);
    assert.match(await textOf(page, '.add'), /^Add the corrected string$/);
    await click(page, '.add');
    assert.match(await textOf(page, '.added > h3'), /^One more share is needed: the threshold is 3\.$/);
    await add(page, CASH.d);
    assert.match(await textOf(page, '.added'), /^These three shares belong together and recover the secret\. Nothing checks them yet: .* A fourth share would reveal a mistake\. Compare this with the source, .* Show the secret .* String 2: share “c” Character 11 should be c, not q\./);
    await click(page, '.reveal');
    assert.deepEqual(await page.evaluate('return [...document.querySelectorAll(".secret code")].map((it) => it.textContent);'), [CASH.s, CASH_BYTES]);
    await add(page, CASH.e);
    assert.match(await textOf(page, '.added'), /^These four shares belong together and recover the secret\. All four agree, and three would be enough\./);
    assert.equal(await page.evaluate('return document.querySelectorAll(".secret code").length;'), 0);
    await click(page, '.remove');
    assert.match(await textOf(page, '.added > h3'), /^These three shares/);
  });
  await t.test('what does not belong together is told', async () => {
    await page.visit(PAGE);
    for (const text of [CASH.a, CASH.a, NAME.c, CASH.c]) await add(page, text);
    const said = await textOf(page, '.added');
    assert.match(said, /^One more share is needed: the threshold is 3\./);
    assert.match(said, /String 3 is of another set than string 1: its threshold is 2, not 3\. String 2 is the same as string 1, and counts once\./);
  });
  await t.test('the secret is hidden until it is asked for, and again, and nothing copies it', async () => {
    await page.visit(PAGE);
    for (const text of [CASH.a, CASH.c, CASH.d]) await add(page, text);
    assert.deepEqual((await page.evaluate(FOUND, [CASH.s, CASH_BYTES])).filter((it) => it.length > 10), []);
    assert.match(await textOf(page, '.reveal'), /^Show the secret$/);
    await click(page, '.reveal');
    assert.ok((await page.evaluate(FOUND, [CASH_BYTES])).includes(CASH_BYTES));
    assert.match(await textOf(page, '.secret'), /Its 16 bytes:/);
    assert.deepEqual(await page.evaluate('return [...document.querySelectorAll("main button")].map((it) => it.className);'), ['make', 'reveal', 'remove', 'remove', 'remove']);
    await click(page, '.reveal');
    assert.ok(!(await page.evaluate(FOUND, [CASH_BYTES])).includes(CASH_BYTES));
  });
  await t.test('a string that is the secret itself is shown only behind the button too', async () => {
    await page.visit(PAGE);
    await fill(page, { string: CASH.s });
    assert.match(await textOf(page, '.answer'), /This is a valid codex32 string\. .* It is the secret itself, not a share of it\./);
    assert.deepEqual(await recovered(page, [CASH.s]), [CASH.s, CASH_BYTES]);
  });

  await t.test('a sheet: the text in groups of four, its checksum apart, numbered boxes, and the alphabet with its values', async () => {
    await page.visit(PAGE);
    for (const [secret, end, size] of [[HEX, 35, 48], [LONG, 61, 74]]) {
      const sheets = await split(page, { ...OWN, secret }), places = Array.from({ length: size }, (_, i) => String(i + 1));
      sheets.forEach((it, at) => {
        assert.equal(it.title, `Share “${'acd'[at]}” of the secret “test”`);
        assert.deepEqual([it.data, it.checksum], [it.text.slice(0, end), it.text.slice(end)]);
        assert.deepEqual(it.numbers, [...places.filter((place) => place % 4 === 1 && place <= end), String(end + 1), ...places.filter((place) => place % 4 === 1 && place > end + 1)]);
        assert.deepEqual([it.boxes, it.empty], [places, '']);
        assert.deepEqual([it.alphabet, it.values], ['qpzry9x8gf2tvdw0s3jn54khce6mua7l', Array.from({ length: 32 }, (_, value) => String(value))]);
        assert.match(it.said, new RegExp(`Sheet ${at + 1} of 3\\. Threshold 2, identifier “test”, share index “${'acd'[at]}”, ${size} characters\\.`));
        assert.match(it.said, new RegExp(`Any two of the three shares recover the secret, so whoever has two of them has it\\. Keep each sheet in another place\\. .*places 1 to ${end}:.*places ${end + 1} to ${size}:`));
        assert.equal(it.isSeen, false);
      });
    }
  });
  await t.test('a share is shown on the screen when it is asked for', async () => {
    await click(page, '.sheet:nth-of-type(2) .show');
    assert.deepEqual((await page.evaluate(SHEETS)).map(({ isSeen }) => isSeen), [false, true, false]);
    assert.match(await textOf(page, '.sheet:nth-of-type(2) .show'), /^Hide this share$/);
    await click(page, '.sheet:nth-of-type(2) .show');
    assert.deepEqual((await page.evaluate(SHEETS)).map(({ isSeen }) => isSeen), [false, false, false]);
  });
  await t.test('each share is printed on its own sheet of paper, one of them or all', async () => {
    await page.visit(PAGE);
    const papers = [[8.27, 11.69], [8.5, 11]];
    for (const paper of papers) assert.equal(pagesIn(await page.pdf(...paper)), 1);
    // Nine sheets without a break would fill fewer pages.
    for (const secret of [HEX, LONG]) {
      await split(page, { ...OWN, secret, count: '9' });
      for (const paper of papers) assert.equal(pagesIn(await page.pdf(...paper)), 9);
    }
    await page.evaluate('window.print = () => { window.asked = [document.body.className, [...document.querySelectorAll(".sheet")].map((it) => it.classList.contains("chosen"))]; };');
    await click(page, '.print-all');
    assert.deepEqual(await page.evaluate('return window.asked;'), ['', Array(9).fill(false)]);
    assert.equal(pagesIn(await page.pdf(...papers[0])), 9);
    await page.evaluate('window.dispatchEvent(new Event("afterprint"));');
    await click(page, '.sheet:nth-of-type(3) .print');
    assert.deepEqual(await page.evaluate('return window.asked;'), ['one', Array.from({ length: 9 }, (_, at) => at === 2)]);
    assert.equal(pagesIn(await page.pdf(...papers[0])), 1);
    await page.evaluate('window.dispatchEvent(new Event("afterprint"));');
    assert.deepEqual(await page.evaluate('return [document.body.className, document.querySelectorAll(".chosen").length];'), ['', 0]);
    assert.equal(pagesIn(await page.pdf(...papers[0])), 9);
  });

  // Everything that a page can hold: a given secret, its shares, shown and not, strings that were added, a secret that is shown.
  const filled = async () => {
    const shares = await splitTexts(page, OWN);
    await click(page, '.show');
    for (const text of [CASH.a, CASH.c, CASH.d]) await add(page, text);
    await click(page, '.reveal');
    await fill(page, { string: NAME.a });
    return [HEX, CASH_BYTES, CASH.s, CASH.a, CASH.c, CASH.d, NAME.a, ...shares];
  };
  await t.test('the button clears all, and nothing of a secret is left in the document or a field', async () => {
    await page.visit(PAGE);
    const words = await filled();
    for (const word of words) assert.ok((await page.evaluate(FOUND, [word])).includes(word) || [CASH.a, CASH.c, CASH.d].includes(word), word);
    await click(page, '#forget');
    assert.deepEqual(await page.evaluate(FOUND, words), []);
    assert.match(await textOf(page, '#forgotten'), /^All fields, shares and sheets of this page are cleared\. The browser and the system may still hold copies in memory, .* Close the browser and turn the computer off\.$/);
    const [isSeen] = await page.evaluate('const { top, bottom } = document.getElementById("forgotten").getBoundingClientRect(); return [top >= document.getElementById("forget").getBoundingClientRect().bottom && bottom <= window.innerHeight];');
    assert.ok(isSeen);
    await new Promise((done) => setTimeout(done, 900));
    assert.match(await page.evaluate('return document.getElementById("spoken").textContent;'), /^All fields, shares and sheets of this page are cleared\./);
    assert.equal(await page.evaluate('return document.getElementById("kind").value + document.getElementById("secret").checkVisibility();'), '16false');
    // That is said until there is something again, and all works as before.
    await fill(page, { identifier: 'test' });
    assert.equal(await textOf(page, '#forgotten'), '');
    assert.deepEqual((await recovered(page, await splitTexts(page, OWN))).at(-1), HEX);
  });
  for (const [place, open] of [['a disk', (body) => body(PAGE)], ['a server', (body) => withServer((address) => body(`${address}share.html`), { '/share.html': source })]]) {
    await t.test(`it forgets all when it is left, opened from ${place}, and nothing is there when one comes back or loads it anew`, () => open(async (url) => {
      await page.visit(url);
      const words = await filled();
      await page.evaluate('window.addEventListener("pageshow", ({ persisted }) => { window.wasKept = persisted; });');
      await page.visit('about:blank');
      await page.back();
      assert.equal(await page.evaluate('return location.href;'), url);
      t.diagnostic(`${place}: the browser ${await page.evaluate('return window.wasKept === true;') ? 'kept the page, which was cleared' : 'loaded the page anew'}`);
      assert.deepEqual(await page.evaluate(FOUND, words), []);
      const more = await filled();
      await page.evaluate('setTimeout(() => location.reload(), 0); await new Promise((done) => setTimeout(done, 100));').catch(() => {});
      await until(() => page.evaluate('return document.readyState === "complete" && document.querySelectorAll(".make").length === 1 && document.querySelectorAll(".sheet").length === 0;').catch(() => false), 'new page', 10);
      assert.deepEqual(await page.evaluate(FOUND, more), []);
    }));
  }
  await t.test('a page that is left is cleared at that moment', async () => {
    await page.visit(PAGE);
    const words = await filled();
    await page.evaluate('window.dispatchEvent(new PageTransitionEvent("pagehide", { persisted: true }));');
    assert.deepEqual(await page.evaluate(FOUND, words), []);
    const more = await filled();
    await page.evaluate('window.dispatchEvent(new PageTransitionEvent("pageshow", { persisted: true }));');
    assert.deepEqual(await page.evaluate(FOUND, more), []);
  });
  await t.test('nothing stands in the address, the history or a store', async () => {
    await page.visit(PAGE);
    const before = await page.evaluate(KEPT);
    await filled();
    assert.deepEqual(await page.evaluate(KEPT), before);
    assert.deepEqual([before[0], before.slice(2)], [PAGE, [null, '', '', 0, 0, 0, 0]]);
  });
  await t.test('no field is completed, checked, kept or sent', async () => {
    const fields = await page.evaluate('return [...document.querySelectorAll("input, textarea, select")].map((it) => [it.id, it.autocomplete, it.spellcheck, it.name, it.form === null, it.labels.length]);');
    assert.deepEqual(fields, ['kind', 'secret', 'threshold', 'count', 'identifier', 'string'].map((id) => [id, 'off', false, '', true, 1]));
    assert.equal(await page.evaluate('return document.querySelectorAll("form, [name]:not(meta), a").length;'), 0);
  });
  await t.test('no text of a user is translated', async () => {
    await page.visit(PAGE);
    await filled();
    assert.deepEqual(await page.evaluate('return [...document.querySelectorAll("main .grid, main .rows, main code")].filter((it) => it.translate).map((it) => it.className);'), []);
  });
  await t.test('what was typed does not come back by undoing', async () => {
    await page.visit(PAGE);
    await page.evaluate('document.getElementById("string").focus();');
    await page.type(NAME.d);
    await click(page, '#forget');
    await page.evaluate('document.getElementById("string").focus(); document.execCommand("undo"); document.execCommand("undo");');
    assert.deepEqual(await page.evaluate(FOUND, [NAME.d]), []);
  });
  await t.test('nothing leaves it', () => withServer(async (address, hits) => {
    await page.visit(PAGE);
    await filled();
    await page.evaluate(LEAK, address);
    assert.deepEqual(hits, []);
  }));
  await t.test('no other script runs in it', async () => {
    await page.visit(PAGE);
    assert.equal(await page.evaluate(RUN, browser === chromium), 'undefined');
  });
  await t.test('a changed byte stops its script', async () => {
    for (const word of ['use strict', 'gave the secret back', 'AGFzbQ']) {
      const at = Buffer.from(source).indexOf(word) + 1;
      assert.ok(at > 0, word);
      await withChanged(page, source, at, async () => {
        assert.match(await textOf(page, 'main'), /^\W*The script of this page did not run/);
        assert.equal(await page.evaluate('return document.querySelectorAll("main button, main textarea").length;'), 0);
      });
    }
  });
  await t.test('keys alone reach everything', async () => {
    await page.visit(PAGE);
    const focused = () => page.evaluate('return document.activeElement.id || document.activeElement.className || document.activeElement.tagName;');
    const order = [];
    await fill(page, { kind: 'own' });
    for (let i = 0; i < 9; i++) {
      await page.press('Tab');
      order.push(await focused());
    }
    assert.deepEqual(order, ['forget', 'kind', 'secret', 'threshold', 'count', 'identifier', 'make', 'string', 'SUMMARY']);
    await page.evaluate('document.getElementById("string").focus();');
    await page.type(CASH.a);
    await page.press('Tab');
    assert.equal(await focused(), 'add');
    await page.press('Enter');
    assert.deepEqual([await focused(), await page.evaluate('return document.getElementById("string").value;')], ['string', '']);
    assert.match(await page.evaluate('return document.getElementById("spoken").textContent;'), /^Two more shares are needed: the threshold is 3\./);
  });
  for (const [device, width] of [...browser.narrow, ['telephone', 390], ['desk', 1280]]) {
    await t.test(`warnings stand above the buttons that they are about, and both are seen at once, on a ${device}`, async () => {
      await page.visit(PAGE);
      await page.size(width, 844);
      const above = async (button, warnings, least) => {
        const { top, bottom, above: all } = await page.evaluate(PLACES, button, warnings);
        assert.ok(all.length >= least, button);
        assert.ok(all.every((it) => it.bottom <= top), `${button}: ${JSON.stringify({ top, bottom, all })}`);
        if (width >= 390) assert.ok(bottom - Math.min(...all.map((it) => it.top)) <= 844, `${button}: ${JSON.stringify({ top, bottom, all })}`);
      };
      await isOffline(page, false);
      await above('.make', '.split > .network .caution', 1);
      await split(page, OWN);
      await above('.print-all', '.made > .caution', 2);
      await above('.show', '.made > .caution', 2);
      await fill(page, { string: DAMAGED });
      await above('.add', '.answer .caution', 2);
      await click(page, '.add');
      for (const text of [CASH.a, CASH.d]) await add(page, text);
      await above('.reveal', '.added .caution', 3);
    });
    await t.test(`it fits the width of a ${device}, and all of it can be read`, async () => {
      await page.visit(PAGE);
      await page.size(width, 844);
      const looks = async (name) => {
        assert.ok(await page.evaluate('return document.documentElement.scrollWidth <= window.innerWidth;'), name);
        assert.ok(await page.evaluate('return [...document.querySelectorAll("th, td, .letter, .number")].every((it) => it.getBoundingClientRect().height < 60);'), name);
        assert.deepEqual(await page.evaluate(CONTRAST, READ), [], name);
        await pictured(page, `${browser.name}-${device}-light-share-${name}`);
      };
      await looks('empty');
      await isOffline(page, true);
      await fill(page, { ...OWN, secret: WORDS });
      await looks('words');
      await split(page, { ...OWN, secret: LONG, threshold: '3', count: '5' });
      await click(page, '.sheet .show');
      await looks('made');
      await click(page, '#forget');
      await looks('forgotten');
      for (const text of [CASH.a, CASH.d]) await add(page, text);
      await fill(page, { string: DAMAGED });
      await looks('mended');
      await click(page, '.add');
      await click(page, '.reveal');
      await looks('recovered');
    });
  }
};

// The files of a browser's folder in which some words stand, in parts of ten characters.
const keptIn = (browser, { folder }, words) => {
  const parts = words.flatMap((word) => Array.from({ length: word.length - 9 }, (_, i) => word.slice(i, i + 10)));
  const isIn = (bytes) => (part) => bytes.includes(part) || bytes.includes(Buffer.from(part, 'utf16le'));
  return fs.readdirSync(folder, { recursive: true, withFileTypes: true }).filter((it) => it.isFile()).flatMap((it) => {
    const file = path.join(it.parentPath ?? it.path, it.name);
    try {
      return parts.some(isIn(browser.plain(fs.readFileSync(file)))) ? [path.relative(folder, file)] : [];
    } catch (error) {
      // The browser takes files away meanwhile.
      if (error.code !== 'ENOENT') throw error;
      return [];
    }
  });
};

// A browser keeps what stands in fields on the disk, Firefox while they are seen, Chromium when it ends: so a plain field is
// found there, and nothing of this page.
for (const browser of [firefox, chromium]) {
  if (!browser.program) continue;
  test(`${browser.name} writes nothing of it to the disk`, { timeout: 120000 }, async (t) => {
    const page = await browser.open(), folder = fs.mkdtempSync(path.join(os.tmpdir(), 'plain-'));
    const file = path.join(folder, 'plain.html'), control = 'kwjxqzhvbgpfmtycdnrls', controls = [];
    const type = async (text) => {
      await page.evaluate('document.getElementById("string").focus();');
      await page.type(text);
    };
    // Firefox writes each second here.
    const written = () => new Promise((done) => setTimeout(done, 3000));
    try {
      fs.writeFileSync(file, '<!doctype html><title>.</title><textarea id="string"></textarea>');
      await page.visit(pathToFileURL(file).href);
      await type(control);
      await written();
      controls.push(...keptIn(browser, page, [control]));
      await page.visit(PAGE);
      const words = [HEX, NAME.d.slice(3), ...(await splitTexts(page, OWN)).map((it) => it.slice(9))];
      await type(NAME.d);
      await written();
      assert.deepEqual(keptIn(browser, page, words), []);
      await page.visit('about:blank');
      await written();
      await page.quit();
      controls.push(...keptIn(browser, page, [control]));
      assert.ok(controls.length > 0, 'what was typed into a plain page is not found');
      t.diagnostic(`what was typed into a plain page is found in ${[...new Set(controls)].join(', ')}`);
      assert.deepEqual(keptIn(browser, page, words), []);
    } finally {
      await page.stop();
      fs.rmSync(folder, { recursive: true });
    }
  });
}

inBrowser(firefox, common(firefox));
inBrowser(chromium, async (t, page) => {
  await common(chromium)(t, page);

  await t.test('it requests nothing but itself, and writes nothing to the console', async () => {
    page.requests.length = 0;
    page.logged.length = 0;
    await page.visit(PAGE);
    await recovered(page, await splitTexts(page, OWN));
    for (const [text] of MISREAD) await fill(page, { string: text });
    for (const [fields] of WRONG) await split(page, { ...OWN, ...fields });
    await click(page, '#forget');
    assert.deepEqual(page.requests.filter((url) => !url.startsWith('data:')), [PAGE]);
    assert.deepEqual(page.logged, []);
  });
  await t.test('what is printed is the sheets, and nothing else', async () => {
    await page.visit(PAGE);
    await split(page, OWN);
    for (const text of [CASH.a, CASH.c, CASH.d]) await add(page, text);
    await click(page, '.reveal');
    const seen = 'return [...document.querySelectorAll("h1, h2, h3, h4, p, li, label, button, textarea, input, select, .caution, .secret, .string, .grid, table, summary")].filter((it) => it.checkVisibility() && !it.classList.contains("unseen")).map((it) => (it.closest(".sheet") ? "sheet" : it.textContent));';
    await page.asPrinted(true);
    try {
      assert.deepEqual([...new Set(await page.evaluate(seen))], ['sheet']);
      assert.deepEqual(await page.evaluate('return [...document.querySelectorAll(".sheet")].map((it) => getComputedStyle(it).breakAfter);'), ['page', 'page', 'auto']);
      assert.equal(await page.evaluate('return document.querySelectorAll(".sheet .controls").length;'), 3);
      assert.deepEqual(await page.evaluate(CONTRAST, READ), []);
      await pictured(page, 'Chromium-printed');
      await click(page, '#forget');
      assert.deepEqual(await page.evaluate(seen), ['There is no sheet to print: make shares first.']);
    } finally {
      await page.asPrinted(false);
    }
    assert.equal(await textOf(page, '.no-sheet'), '');
  });
  await t.test('without random bytes there are no shares', async () => {
    const undo = await page.before('Crypto.prototype.getRandomValues = () => { throw new Error("no entropy"); };');
    await page.visit(PAGE);
    for (const [kind, identifier] of [['16', 'test'], ['32', 'test'], ['own', ''], ['own', 'test']]) {
      assert.deepEqual(await split(page, { ...OWN, kind, identifier }), []);
      assert.match(await textOf(page, '.problem'), /^No shares were made, because the browser gave no random bytes\. Error: no entropy$/);
    }
    await undo();
  });
  await t.test('where a module stops it says so, and the next split is made', async () => {
    const undo = await page.before(`
      const { Instance } = WebAssembly; let stops = 1;
      WebAssembly.Instance = function (...given) {
        const exports = { ...new Instance(...given).exports };
        for (const [name, call] of Object.entries(exports)) {
          if (/^codex32_(?!wipe)/.test(name)) exports[name] = (...all) => { if (stops-- > 0) throw new WebAssembly.RuntimeError('unreachable'); return call(...all); };
        }
        return { exports };
      };`);
    await page.visit(PAGE);
    assert.deepEqual(await split(page, OWN), []);
    assert.match(await textOf(page, '.problem'), /^The library stopped without an answer and was started again\./);
    assert.equal((await split(page, OWN)).length, 3);
    await undo();
  });
  await t.test('without 64-bit memory the lowered modules do the same, and it says so', async () => {
    const undo = await page.before('WebAssembly.validate = () => false;');
    await page.visit(PAGE);
    assert.match(await page.evaluate('return document.getElementById("memory").textContent;'), /lowered to 32 bits\. That step is not proved/);
    assert.equal((await recovered(page, await splitTexts(page, OWN))).at(-1), HEX);
    await undo();
  });
  await t.test('without WebAssembly it says that it does not run', async () => {
    const undo = await page.before('delete window.WebAssembly;');
    await page.visit(PAGE);
    assert.match(await textOf(page, 'main'), /This browser does not run the library/);
    await undo();
  });
  await t.test('the tree of a screen reader has all fields and buttons by their names, and the share as text', async () => {
    await page.visit(PAGE);
    const [{ text }] = await split(page, OWN);
    await click(page, '.show');
    const nodes = await page.accessible(), has = (role, name) => nodes.some((it) => it.role === role && name.test(it.name));
    for (const [role, name] of [
      ['combobox', /^Which secret$/], ['combobox', /^Shares needed to recover it$/], ['combobox', /^Shares in all$/], ['textbox', /^Identifier$/], ['textbox', /^One share$/],
      ['button', /^Forget all$/], ['button', /^Print all sheets$/], ['heading', /^Share “a” of the secret “test”$/], ['StaticText', new RegExp(`^${text}$`)],
    ]) assert.ok(has(role, name), `${role} ${name}`);
  });
});

for (const browser of [firefox, chromium]) {
  if (!browser.program) continue;
  test(`${browser.name}, dark`, { timeout: 120000 }, async () => {
    const page = await browser.open('dark');
    try {
      for (const [device, width] of [['telephone', 390], ['desk', 1280]]) {
        await page.size(width, 844);
        await page.visit(PAGE);
        await split(page, { ...OWN, secret: LONG });
        await click(page, '.show');
        for (const text of [CASH.a, DAMAGED, CASH.d]) await add(page, text);
        await click(page, '.reveal');
        await fill(page, { string: DAMAGED });
        assert.deepEqual(await page.evaluate(CONTRAST, READ), []);
        await pictured(page, `${browser.name}-${device}-dark-share`);
        assert.equal(await page.evaluate('return getComputedStyle(document.body).backgroundColor;'), 'rgb(22, 22, 22)');
        if (browser !== chromium) continue;
        await page.asPrinted(true);
        assert.equal(await page.evaluate('return getComputedStyle(document.body).backgroundColor;'), 'rgb(255, 255, 255)');
        assert.deepEqual(await page.evaluate(CONTRAST, READ), []);
        await page.asPrinted(false);
      }
    } finally {
      await page.stop();
    }
  });
}
