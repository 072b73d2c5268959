// The page in browsers: what is shown for each kind of text, that nothing leaves it, and that a changed byte stops it.
//
// PAGE_SCREENS names a folder for screenshots, to be looked at; without it there are none.
import test from 'node:test';
import assert from 'node:assert/strict';
import fs from 'node:fs';
import { fileURLToPath, pathToFileURL } from 'node:url';
import * as chromium from './browsers/chromium.mjs';
import * as firefox from './browsers/firefox.mjs';
import { until } from './browsers/browser.mjs';
import { CONTRAST, LEAK, NAMES_ANOTHER, RUN, inBrowser, pictured, policiesOf, withChanged, withServer } from './browsers/checks.mjs';
import { COUNT, KINDS_OF_TEXTS, textsOf } from './right-texts.mjs';
import { CASH, SECRET, SETS, strings } from './sets.mjs';
import { WRONG } from './wrong-texts.mjs';

const FILE = fileURLToPath(new URL('../out/index.html', import.meta.url));
const PAGE = pathToFileURL(FILE).href;
const source = fs.readFileSync(FILE, 'utf8');

const V0 = 'bc1qw508d6qejxtdg4y5r3zarvary0c5xw7kv8f3t4';
const DAMAGED = 'bc1qw508d6qejxtdg4y5r3zarvaty0c5xw7kv8f3t4';
// One wrong character, in a text that is longer than a screen.
const SILENT = 'sp1qqgste7k9hx0qftg6qmwlkqtwuy6cycyavzmzj85c6qdfhjdpdjtdgqjqexzk6murw56suy3e0rd2cgqvycxttddwsvgxe2usfpxumr70xc9pkqwv';
const NSEC = 'nsec1vl029mgpspedva04g90vltkh6fvh240zqtv9k0t9af8935ke9laqsnlfe5';
const STRING = 'ms10testsxxxxxxxxxxxxxxxxxxxxxxxxxx4nzvca9cmczlw';

// ---- the file

test('the policy allows the script and the style that stand in the file, and nothing else', () => {
  const [policy, wanted] = policiesOf(source);
  assert.equal(policy, wanted);
  assert.ok(source.indexOf('Content-Security-Policy') < source.indexOf('<style>'));
});

test('the file names no other, and no address', () => {
  assert.doesNotMatch(source, NAMES_ANOTHER);
});

// ---- in a browser

const TYPED = 'const typed = document.getElementById("typed"); typed.value = arguments[0]; typed.dispatchEvent(new Event("input"));';
const SHOWN = `
  const answer = document.getElementById("answer"), all = (what) => [...answer.querySelectorAll(what)];
  const marked = (name) => all("mark." + name).map((it) => it.textContent).join("");
  const red = all("*").filter((it) => ["rgb(163, 13, 26)", "rgb(255, 143, 152)"].includes(getComputedStyle(it).color)).map((it) => it.className);
  return { text: answer.innerText, struck: marked("struck"), mended: marked("mended"), red, warnings: all(".caution").map((it) => it.innerText), codes: all("code").map((it) => it.textContent),
    numbers: all(".number").map((it) => it.textContent), groups: all(".columns").map((it) => [...it.children].map((column) => column.children[0].textContent).join("")) };`;

const shownFor = async (page, text) => {
  await page.evaluate(TYPED, text);
  return page.evaluate(SHOWN);
};

// What is shown for each of some texts: the tones, whether anything is offered, and the first verdict.
const EACH = `
  const typed = document.getElementById("typed"), answer = document.getElementById("answer"), count = (what) => answer.querySelectorAll(what).length;
  return arguments[0].map((text) => {
    typed.value = text;
    typed.dispatchEvent(new Event("input"));
    const verdicts = [...answer.querySelectorAll(".verdict")];
    return { tones: verdicts.map((it) => it.classList[1]), verdict: verdicts[0].textContent, offers: count(".offer, mark.mended, .verdict.mended"), warnings: count(".caution"), buttons: count("button") };
  });`;

// What the answer says is spoken behind a pause, and what a button says is not to be mistaken for it.
const isSpoken = (page) => until(() => page.evaluate('return document.getElementById("spoken").textContent !== "";'), 'word of the answer', 10);

// Presses the button that copies, by its key, until it says that it did: a key that comes before the window has its focus is
// lost, and a second one copies the same again.
const copiedByKey = async (page) => {
  const isCopied = () => page.evaluate('return document.querySelector(".copy").textContent === "Copied";');
  for (let left = 6; ; left--) {
    await page.evaluate('window.focus(); document.querySelector(".copy").focus();');
    await page.press('Enter');
    try {
      return await until(isCopied, 'word that it was copied', 5);
    } catch (error) {
      if (left === 0) throw error;
    }
  }
};

// A kind of text, what is said of it, and the characters that are struck out and mended.
const KINDS = [
  ['an address', V0, /This is a valid Bitcoin address\.[^]*segwit address of Bitcoin\. Its Bech32 checksum is right/, '', ''],
  ['an address behind bitcoin:', `BITCOIN:${V0.toUpperCase()}`, /This is a valid Bitcoin address[^]*The “BITCOIN:” before it was left out/, '', ''],
  ['a payment text', 'a1lqfn3a', /This is a valid Bech32m text/, '', ''],
  ['one wrong character', DAMAGED, /Character 28 should be r, not t\.[^]*Compare this with the source[^]*As typed, the checksum is wrong/, 't', 'r'],
  ['a character that cannot be read', `${V0.slice(0, 27)}?${V0.slice(28)}`, /The unreadable character 28 is r\.[^]*Compare this with the source/, '?', 'r'],
  ['two wrong characters', `${V0.slice(0, 11)}qq${V0.slice(13)}`, /Character 12 should be e, not q; character 13 should be j, not q\.[^]*Compare this with the source/, 'qq', V0.slice(11, 13)],
  ['a missing character', V0.slice(0, 20) + V0.slice(21), /One character is missing: r, as character 21\.[^]*Compare this with the source[^]*41 characters\. An address of version 0 has 42 or 62/, '', 'r'],
  ['a character too many', `${V0.slice(0, 27)}r${V0.slice(27)}`, /One character is too many: character 29, r\.[^]*Compare this with the source/, 'r', ''],
  ['two that were swapped', `${V0.slice(0, 22)}az${V0.slice(24)}`, /Two neighbours are swapped: characters 23 and 24 should be za, not az\.[^]*Compare this with the source/, 'az', 'za'],
  ['three wrong characters', `${V0.slice(0, 11)}qq${V0.slice(13, 20)}q${V0.slice(21)}`, /^\W*This address is wrong; do not use it\.[^]*No correction was found\./, '', ''],
  ['a character that is no data', `${V0.slice(0, 27)}b${V0.slice(28)}`, /Character 28, “b”, is treated as unreadable/, 'b', 'r'],
  ['a missing beginning', V0.slice(3), /The beginning bc1 is missing\./, '', 'bc1'],
  ['no separator', 'qpzry', /^\W*This does not look like a Bech32 text, so this page cannot judge it\.$/, '', ''],
  ['a Dogecoin address', 'DH5yaieqoZN36fDVciNyRueRGvGLR3mr7L', /^\W*This looks like a Dogecoin address\./, '', ''],
  ['a Core Lightning secret', 'cl10leetsllhdmn9m42vcsamx24zrxgs3qrl7ahwvhw4fnzrhve25gvezzyqqjdsjnzedu43ns', /This is a valid Core Lightning secret/, '', ''],
  ['a codex32 string', STRING, /This is a valid codex32 string/, '', ''],
  ['an offer', 'lno1pqps7sjqpgtyzm3qv4uxzmtsd3jjqer9wd3hy6tsw35k7msj', /begins like a Lightning offer \(BOLT12\), which has no checksum/, '', ''],
  ['a link with two parts', `bitcoin:${V0}?lno=lno1pqps7sjqpgtyzm3qv4uxzmtsd3jjqer9wd3hy6tsw35k7msj`, /This link names two ways to pay\.[^]*The address\s+This is a valid Bitcoin address[^]*The Lightning offer \(lno=\)\s+This begins like a Lightning offer/, '', ''],
  ['a damaged codex32 string', `${STRING.slice(0, 20)}qq?${STRING.slice(23)}`, /should be x, not q\. The unreadable character 23 is x[^]*Compare this with the source/, 'qq?', 'xxx'],
];

const HOSTILE = [
  ['a text of a megabyte', 'q'.repeat(1 << 20), /has 1,048,576 characters, which is more than this page reads/],
  ['a lone surrogate', 'bc1\ud800qqqqqqqq', /half of a character \(U\+D800\)/],
  ['a right-to-left mark', `bc1q\u200f${V0.slice(4)}`, /Invisible characters were left out: a right-to-left mark \(U\+200F\)/],
  ['the Kelvin sign', V0.replaceAll('k', '\u212a'), /the Kelvin sign, which looks like K/],
  ['markup', 'bc1<img src=x onerror="window.ran=1"><script>window.ran=1</script>', /does not look like a Bech32 text/],
  ['markup in an address', `${V0}<i><b><img>${V0.slice(3)}${V0.slice(3)}${V0.slice(3)}`, /treated as unreadable/],
  ['markup in a human-readable part', '<script>window.ran=1</script>1qqqqqq', /does not know texts that begin with “<script>window.ran=1<\/script>1”/],
];

const byteOf = (word) => Buffer.from(source).indexOf(word);

// The elements whose text is read.
const READ = 'h1, h2, h3, label, #help, textarea, button, #answer p, #answer li, code, mark, .column span, .number, summary, footer p';

// Where the warnings and the buttons stand.
const SEEN = `
  window.scrollTo(0, 0);
  const placesOf = (what) => [...document.querySelectorAll("#answer " + what)].map((it) => { const { top, bottom } = it.getBoundingClientRect(); return { top, bottom }; });
  return { above: placesOf(".caution"), below: placesOf(".copy, #answer .reveal") };`;

// One text of each form that an answer has.
const PICTURES = [
  ['empty', ''], ['right', V0], ['mended', DAMAGED], ['two', WRONG.find(([name]) => name === 'two addresses that are near')[1]],
  ['nothing', KINDS.find(([kind]) => kind === 'three wrong characters')[1]],
  ...[['missing', 'a missing character'], ['too-many', 'a character too many'], ['swapped', 'two that were swapped']].map(([name, kind]) => [name, KINDS.find(([it]) => it === kind)[1]]),
  ['weak', WRONG.find(([name]) => name === 'a missing q before the last p')[1]], ['open', V0.slice(0, 20)], ['warning', 'abandon ability able about above'], ['several', `${V0} ${DAMAGED}`],
  ['codex32', KINDS.at(-1)[1]], ['link', KINDS.at(-2)[1]], ['offer', KINDS.at(-3)[1]], ['secret', NSEC], ['secret-mended', `${NSEC.slice(0, 40)}q${NSEC.slice(41)}`],
  ['foreign', 'Hello, is this thing on?'], ['dogecoin', 'DH5yaieqoZN36fDVciNyRueRGvGLR3mr7L'], ['unknown-part', 'abcd1qqqqqqqqqqqqqqqqqqqqqq'], ['lightning-secret', 'cl10leetsllhdmn9m42vcsamx24zrxgs3qrl7ahwvhw4fnzrhve25gvezzyqqjdsjnzedu43ns'],
  ['mini-key', 'S6c56bnXQiBjk9mqSYE7ykVQ7NzrRy'], ['testnet', 'tb1qw508d6qejxtdg4y5r3zarvary0c5xw7kxpjzsx'], ['long', `lnbc1${'q'.repeat(7683)}`], ['begun', V0.slice(0, 5)],
  ['taproot', 'bc1p0xlxvlhemja6c4dqv22uapctqupfhlxm9h8z3k2e72q4k9hcz7vqzk5jj0'], ['refused', HOSTILE[5][1]], ['set', `${CASH.a}\n${CASH.c.slice(0, 20)}q?${CASH.c.slice(22)}\n${CASH.d.slice(0, 47)}`],
];

// A set that gives its secret, which is then shown.
const REVEALED = 'const it = document.querySelector(".reveal"); it.focus(); it.click(); return document.querySelector(".secret").innerText;';
const IN_PAGE = 'const page = document.documentElement.cloneNode(true); page.querySelectorAll("script").forEach((it) => it.remove()); return page.outerHTML.toLowerCase().includes(arguments[0]);';

const common = (browser) => async (t, page) => {
  await page.size(1280, 900);
  await page.visit(PAGE);

  await t.test('it runs from a disk, and has an example before there is a text', async () => {
    assert.match((await page.evaluate(SHOWN)).text, /^An example with one wrong character:\s+bc1qw508d6qejxtdg4y5r3zarvaty0c5xw7kv8f3t4$/);
    await page.evaluate('document.querySelector("#answer button").click();');
    assert.match((await page.evaluate(SHOWN)).text, /Character 28 should be r/);
    assert.deepEqual(await page.evaluate('return [document.activeElement.id, document.getElementById("typed").value];'), ['typed', DAMAGED]);
  });
  for (const [kind, text, wanted, struck, mended] of KINDS) {
    await t.test(`shows ${kind}`, async () => {
      const shown = await shownFor(page, text);
      assert.match(shown.text, wanted);
      assert.deepEqual([shown.struck, shown.mended], [struck, mended]);
      if (mended) assert.ok([V0, STRING].includes(shown.codes[0]), shown.codes[0]);
    });
  }
  await t.test('has the sentence of each wrong text, and nothing red where it was mended', async () => {
    for (const [name, text, wanted, mended] of WRONG) {
      const shown = await shownFor(page, text);
      assert.match(shown.text, wanted, name);
      if (mended === null) continue;
      assert.deepEqual([shown.codes[0], shown.red], [mended, []], name);
    }
    t.diagnostic(`${WRONG.length} wrong texts`);
  });
  await t.test(`answers no right text by a correction: ${COUNT} of each kind`, async () => {
    for (const [at, [name, , tone, verdict]] of KINDS_OF_TEXTS.entries()) {
      const texts = textsOf(at), shown = await page.evaluate(EACH, texts);
      shown.forEach((it, i) => assert.deepEqual([it.offers, it.tones[0]], [0, tone], `${name}: ${texts[i]}`));
      shown.forEach((it, i) => assert.match(it.verdict, verdict, `${name}: ${texts[i]}`));
      if (tone === 'warning') assert.ok(shown.every((it) => it.warnings > 0 && it.buttons === 0), name);
    }
    t.diagnostic(`${KINDS_OF_TEXTS.length} kinds`);
  });
  await t.test('the places of a text in groups of four', async () => {
    const { numbers, groups } = await shownFor(page, DAMAGED);
    assert.deepEqual(numbers, ['1', '5', '9', '13', '17', '21', '25', '29', '33', '37', '41']);
    assert.equal(groups.join(' '), V0.replace(/(....)(?=.)/g, '$1 '));
  });
  await t.test('the bytes of an address stand behind a button, and are spoken to nobody before it is pressed', async () => {
    const bytes = '751e 76e8 1991 96d4 5494 1c45 d1b3 a323 f143 3bd6', read = 'const it = document.querySelector(".bytes"); return [it.textContent, it.getAttribute("aria-expanded"), document.getElementById("answer").innerText.includes(arguments[0])];';
    await page.visit(PAGE);
    await shownFor(page, V0);
    await isSpoken(page);
    assert.doesNotMatch(await page.evaluate('return document.getElementById("spoken").textContent;'), /751e|Witness/);
    assert.deepEqual(await page.evaluate(read, bytes), ['Show its bytes in base 16', 'false', false]);
    await page.evaluate('document.querySelector(".bytes").focus();');
    await page.press('Enter');
    assert.deepEqual(await page.evaluate(read, bytes), ['Hide its bytes in base 16', 'true', true]);
    await page.press('Enter');
    assert.deepEqual(await page.evaluate(read, bytes), ['Show its bytes in base 16', 'false', false]);
  });
  await t.test('what is selected has no places and nothing that was struck out', async () => {
    await shownFor(page, DAMAGED);
    const selected = 'getSelection().selectAllChildren(document.querySelector(".rows")); return getSelection().toString().replace(/\\s/g, "");';
    assert.equal(await page.evaluate(selected), V0);
  });
  await t.test('a button copies the mended text', async () => {
    for (const [text, copied] of [[DAMAGED, V0], [`bitcoin:${V0}?amount=1`, V0]]) {
      await page.visit(PAGE);
      await shownFor(page, text);
      await isSpoken(page);
      await copiedByKey(page);
      assert.equal(await page.evaluate('return document.getElementById("spoken").textContent;'), 'Copied');
      await page.evaluate('const typed = document.getElementById("typed"); typed.focus(); typed.select();');
      await page.paste();
      assert.equal(await page.evaluate('return document.getElementById("typed").value;'), copied);
    }
  });
  await t.test('a secret has no such button', async () => {
    for (const text of [STRING, KINDS.at(-1)[1], `msl${STRING.slice(3)}`, NSEC, `${NSEC.slice(0, 40)}q${NSEC.slice(41)}`, NSEC.toUpperCase()]) {
      await shownFor(page, text);
      assert.equal(await page.evaluate('return document.querySelectorAll(".copy").length;'), 0, text);
    }
  });
  await t.test('several codex32 strings: what each is, whether they suffice, and the secret behind a button', async () => {
    const titles = 'return [...document.querySelectorAll("#answer h3")].map((it) => it.textContent.replace(/^String \\d+(?:: | )/, ""));';
    const buttons = 'return [document.querySelectorAll(".reveal").length, document.querySelectorAll(".copy").length, document.querySelectorAll("#answer button").length];';
    for (const [name, text, tone, sentence, wanted, secret] of SETS) {
      const shown = await shownFor(page, text);
      const unwarned = shown.warnings.reduce((text, warning) => text.replace(warning, ''), shown.text).replace(/\s*\n\s*/g, ' ');
      assert.match(unwarned, new RegExp(sentence.source.replace(/^\^|\$$/g, '')), name);
      assert.deepEqual(await page.evaluate(titles), wanted, name);
      if (['right', 'mended'].includes(tone) && !wanted.includes('cannot be read')) assert.deepEqual(shown.red, [], name);
      assert.deepEqual(await page.evaluate(buttons), secret ? [1, 0, 1] : [0, 0, 0], name);
      assert.match(shown.text, /Type them only on a computer that is offline, with a copy of this page on its disk, and clear the field at the end: whoever sees these strings has the secret, or shares of it\./);
      if (!secret) continue;
      assert.match((await page.evaluate(REVEALED)).replaceAll(/\s+/g, ' '), new RegExp(`The secret as a codex32 string: .*${secret} Its (?:16|64) bytes:`), name);
    }
    t.diagnostic(`${SETS.length} sets`);
  });
  await t.test('the secret is shown and hidden, by keys too, and nothing of it stays', async () => {
    await page.visit(PAGE);
    await shownFor(page, strings(CASH, 'acd'));
    const state = 'const it = document.querySelector(".reveal"); return [it.textContent, it.getAttribute("aria-expanded"), document.getElementById("spoken").textContent, document.activeElement === it];';
    assert.equal(await page.evaluate(IN_PAGE, SECRET), false);
    await isSpoken(page);
    await page.evaluate('document.getElementById("clear").focus();');
    await page.press('Tab');
    await page.press('Enter');
    assert.deepEqual(await page.evaluate(state), ['Hide the secret', 'true', 'The secret is shown below the button.', true]);
    assert.equal(await page.evaluate(IN_PAGE, SECRET), true);
    assert.equal(await page.evaluate(IN_PAGE, 'ffeeddccbbaa99887766554433221100'), true);
    await page.press('Enter');
    assert.deepEqual(await page.evaluate(state), ['Show the secret', 'false', 'The secret is hidden.', true]);
    assert.equal(await page.evaluate(IN_PAGE, SECRET), false);
    await page.press('Enter');
    await shownFor(page, strings(CASH, 'ac'));
    assert.equal(await page.evaluate(IN_PAGE, SECRET), false);
    await shownFor(page, strings(CASH, 'acd'));
    await page.evaluate(REVEALED);
    await page.evaluate('document.getElementById("clear").click();');
    for (const text of [SECRET, 'ffeeddccbbaa99887766554433221100', CASH.a, CASH.c]) assert.equal(await page.evaluate(IN_PAGE, text), false);
    assert.deepEqual(await page.evaluate('return [location.href, history.state, document.cookie];'), [PAGE, null, '']);
  });
  await t.test('a string that is the secret itself has the button too, and a share has none', async () => {
    await shownFor(page, STRING);
    assert.match(await page.evaluate(REVEALED), /318c6318c6318c6318c6318c6318c631/);
    await shownFor(page, CASH.a);
    assert.equal(await page.evaluate('return document.querySelectorAll(".reveal").length;'), 0);
  });
  await t.test('one of two addresses is chosen by a click', async () => {
    await shownFor(page, `${V0} ${DAMAGED}`);
    await page.evaluate('document.querySelectorAll(".choice")[1].click();');
    assert.match((await page.evaluate(SHOWN)).text, /Character 28 should be r/);
  });
  for (const [kind, text, wanted] of HOSTILE) {
    await t.test(`has a sentence for ${kind}`, async () => {
      const { text: said } = await shownFor(page, text);
      assert.match(said, wanted);
      assert.deepEqual(await page.evaluate('return [String(window.ran), document.querySelectorAll("#answer img, #answer script").length];'), ['undefined', 0]);
    });
  }
  await t.test('keys alone reach everything', async () => {
    await page.visit(PAGE);
    const focused = () => page.evaluate('return document.activeElement.id || document.activeElement.tagName;');
    await page.press('Tab');
    assert.equal(await focused(), 'typed');
    await page.type(DAMAGED);
    assert.match((await page.evaluate(SHOWN)).text, /Character 28 should be r/);
    await page.press('Tab');
    assert.equal(await focused(), 'clear');
    await page.press('Enter');
    assert.deepEqual([await focused(), await page.evaluate('return document.getElementById("typed").value;')], ['typed', '']);
    assert.match((await page.evaluate(SHOWN)).text, /^An example/);
    await page.press('Tab');
    assert.equal(await focused(), 'BUTTON');
    await page.press('Enter');
    assert.match((await page.evaluate(SHOWN)).text, /Character 28 should be r/);
    await page.press('Tab');
    await page.press('Tab');
    assert.equal(await page.evaluate('return document.activeElement.className;'), 'copy');
    await page.press('Tab');
    assert.equal(await page.evaluate('return document.activeElement.className;'), 'bytes');
    await page.press('Tab');
    assert.equal(await focused(), 'SUMMARY');
    await page.press('Enter');
    assert.ok(await page.evaluate('return document.querySelector("details").open;'));
  });
  await t.test('a screen reader is told the answer, once, behind a pause', async () => {
    await shownFor(page, DAMAGED);
    const spoken = 'return document.getElementById("spoken").textContent;';
    assert.equal(await page.evaluate(spoken), '');
    assert.match(await until(async () => (await page.evaluate(spoken)) || null, 'spoken answer', 5), /^Character 28 should be r, not t\. Compare this with the source.* With this change it is a valid Bitcoin address\..*As typed, the checksum is wrong/);
    assert.deepEqual(await page.evaluate('const it = document.getElementById("spoken"); return [it.getAttribute("role"), it.getAttribute("aria-live"), document.querySelector(".rows").getAttribute("aria-hidden"), document.querySelector("label").control.id];'), ['status', 'polite', 'true', 'typed']);
  });
  await t.test('no text stands in the address, the history or a store', async () => {
    const before = await page.evaluate('return history.length;');
    await shownFor(page, STRING);
    const stored = 'let sizes; try { sizes = [localStorage.length, sessionStorage.length]; } catch { sizes = [0, 0]; } return [location.href, history.length, history.state, document.cookie, ...sizes];';
    assert.deepEqual(await page.evaluate(stored), [PAGE, before, null, '', 0, 0]);
  });
  await t.test('nothing leaves it', () => withServer(async (address, hits) => {
    await page.visit(`${address}page`);
    const tries = await page.evaluate(LEAK, address);
    const seen = hits.filter((url) => !/page|favicon/.test(url)).length;
    assert.ok(seen >= tries - 1, `a page without a policy sends: ${hits}`);
    await page.visit(PAGE);
    hits.length = 0;
    await shownFor(page, DAMAGED);
    await page.evaluate(LEAK, address);
    assert.deepEqual(hits, []);
  }));
  await t.test('no other script runs in it', async () => {
    await page.visit(PAGE);
    // Marionette runs its scripts outside the page's policy, so what they evaluate themselves shows nothing.
    assert.equal(await page.evaluate(RUN, browser === chromium), 'undefined');
  });
  await t.test('a changed byte stops its script', async () => {
    for (const word of ['use strict', 'Compare this with the source', 'AGFzbQ']) {
      const at = byteOf(word) + 1;
      assert.ok(at > 0, word);
      await withChanged(page, source, at, async () => {
        const { text } = await shownFor(page, DAMAGED);
        assert.match(text, /^\W*The script of this page did not run/);
      });
    }
    await withChanged(page, source, byteOf(':root {') + 1, async () => {
      assert.match((await shownFor(page, V0)).text, /This is a valid Bitcoin address/);
      assert.equal(await page.evaluate('return getComputedStyle(document.querySelector("summary")).cursor;') === 'pointer', false);
    });
  });
  for (const [device, width] of [...browser.narrow, ['telephone', 390], ['desk', 1280]]) {
    await t.test(`warnings stand above the buttons that they are about, and both are seen, on a ${device}`, async () => {
      await page.visit(PAGE);
      await page.size(width, 844);
      for (const [text, warnings] of [[DAMAGED, 1], [`${V0.slice(0, 20)}${V0.slice(21)}`, 1], [SILENT, 1], [strings(CASH, 'acd'), 1], [`${strings(CASH, 'ac')}\n${CASH.d.slice(0, 20)}?${CASH.d.slice(21)}`, 2], [STRING, 1], [KINDS.at(-1)[1], 2]]) {
        await shownFor(page, text);
        const { above, below } = await page.evaluate(SEEN);
        assert.equal(above.length, warnings, text);
        const [button] = below;
        const [{ top }] = above, end = text === SILENT ? top + 844 : 844;
        assert.ok(above.every((it) => it.top >= 0 && it.bottom <= button.top) && (width < 390 || button.bottom <= end), `${text}: ${JSON.stringify({ above, below })}`);
      }
    });
    await t.test(`the field shows all that is in it, on a ${device}`, async () => {
      for (const text of ['', V0, strings(CASH, 'acdef'), 'q'.repeat(140), `${V0}\n\n\n\n\n`, V0]) {
        await shownFor(page, text);
        const [high, seen, inner] = await page.evaluate('const it = document.getElementById("typed"); return [it.scrollHeight, it.clientHeight, it.offsetHeight];');
        assert.ok(high <= seen, `${text.length}: ${high} of ${seen}`);
        assert.ok(text.length > 60 || inner < 160, `${inner}`);
      }
    });
    await t.test(`the verdict on a long text is seen at once, on a ${device}`, async () => {
      await page.size(width, 844);
      for (const text of [`lnbc1${'q'.repeat(7683)}`, `${V0}\n`.repeat(60)]) {
        await shownFor(page, text);
        const [top, height, isScrolled] = await page.evaluate('window.scrollTo(0, 0); const it = document.getElementById("typed"); return [document.querySelector(".verdict").getBoundingClientRect().bottom, it.offsetHeight, it.scrollHeight > it.clientHeight];');
        assert.ok(top <= 844 && height <= 300 && isScrolled, `${text.length}: ${top}, ${height}, ${isScrolled}`);
      }
    });
    await t.test(`it fits the width of a ${device}`, async () => {
      await page.visit(PAGE);
      await page.size(width, 900);
      for (const [kind, text, , , , secret] of [...KINDS, ...WRONG, ...HOSTILE.slice(1), ...SETS]) {
        await shownFor(page, text);
        if (secret && SETS.some(([name]) => name === kind)) await page.evaluate(REVEALED);
        assert.ok(await page.evaluate('return document.documentElement.scrollWidth <= window.innerWidth;'), kind);
      }
      for (const [name, text] of PICTURES) {
        await shownFor(page, text);
        assert.deepEqual(await page.evaluate(CONTRAST, READ), [], name);
        await pictured(page, `${browser.name}-${device}-light-${name}`);
      }
      await shownFor(page, strings(CASH, 'acde'));
      await page.evaluate(REVEALED);
      assert.deepEqual(await page.evaluate(CONTRAST, READ), []);
      await pictured(page, `${browser.name}-${device}-light-revealed`);
    });
  }
};

inBrowser(firefox, common(firefox));
inBrowser(chromium, async (t, page) => {
  await common(chromium)(t, page);

  await t.test('it requests nothing but itself', async () => {
    page.requests.length = 0;
    await page.visit(PAGE);
    for (const [, text] of [...KINDS, ...HOSTILE, ...SETS]) await shownFor(page, text);
    await page.evaluate('document.querySelector(".reveal")?.click();');
    assert.deepEqual(page.requests.filter((url) => !url.startsWith('data:')), [PAGE]);
  });
  await t.test('it writes nothing to the console', async () => {
    page.logged.length = 0;
    await page.visit(PAGE);
    for (const [, text] of [...KINDS, ...HOSTILE, ...SETS]) await shownFor(page, text);
    await page.evaluate('document.querySelector(".reveal")?.click();');
    assert.deepEqual(page.logged, []);
  });
  await t.test('the tree of a screen reader has a field with its name, and the answer as text', async () => {
    await shownFor(page, DAMAGED);
    const nodes = await page.accessible();
    assert.ok(nodes.some(({ role, name }) => role === 'textbox' && /^A Bitcoin address/.test(name)));
    assert.ok(nodes.some(({ role, name }) => role === 'StaticText' && name === V0));
    assert.ok(nodes.some(({ role, name }) => role === 'button' && name === 'Copy it'));
    assert.ok(nodes.some(({ role, name }) => role === 'heading' && /^Character 28 should be r/.test(name)));
    assert.ok(!nodes.some(({ role, name }) => role === 'StaticText' && /^[a-z0-9]$/.test(name)));
    await shownFor(page, V0);
    const right = await page.accessible(), digits = ({ name }) => /751e|Witness version/.test(name);
    assert.ok(right.some(({ role, name }) => role === 'button' && name === 'Show its bytes in base 16') && !right.some(digits));
    await page.evaluate('document.querySelector(".bytes").click();');
    assert.ok((await page.accessible()).some(digits));
  });
  await t.test('the button copies where the browser has no newer way', async () => {
    const undo = await page.before('delete Navigator.prototype.clipboard;');
    await page.visit(PAGE);
    await shownFor(page, DAMAGED);
    await page.evaluate('document.querySelector(".copy").focus();');
    await page.press('Enter');
    await until(() => page.evaluate('return document.querySelector(".copy").textContent === "Copied";'), 'word that it was copied', 5);
    await page.evaluate('const typed = document.getElementById("typed"); typed.focus(); typed.select();');
    await page.paste();
    assert.equal(await page.evaluate('return document.getElementById("typed").value;'), V0);
    await undo();
  });
  await t.test('where a module stops it says so, and the next text has an answer', async () => {
    const undo = await page.before(`
      const { Instance } = WebAssembly; let stops = 1;
      WebAssembly.Instance = function (...given) {
        const exports = { ...new Instance(...given).exports }, check = exports.bech32_check;
        if (check) exports.bech32_check = (...all) => { if (stops-- > 0) throw new WebAssembly.RuntimeError('unreachable'); return check(...all); };
        return { exports };
      };`);
    await page.visit(PAGE);
    assert.match((await shownFor(page, V0)).text, /The library stopped without an answer and was started again/);
    assert.match((await shownFor(page, V0)).text, /This is a valid Bitcoin address/);
    await undo();
  });
  await t.test('without 64-bit memory the lowered modules answer, and it says so', async () => {
    const memory = 'return document.getElementById("memory").textContent;';
    await page.visit(PAGE);
    assert.match(await page.evaluate(memory), /has 64-bit WebAssembly memory/);
    const undo = await page.before('WebAssembly.validate = () => false;');
    await page.visit(PAGE);
    assert.match(await page.evaluate(memory), /lowered to 32 bits\. That step is not proved/);
    for (const [, text, wanted] of KINDS) assert.match((await shownFor(page, text)).text, wanted);
    await undo();
  });
  await t.test('without WebAssembly it says that it does not run', async () => {
    const undo = await page.before('delete window.WebAssembly;');
    await page.visit(PAGE);
    assert.match((await page.evaluate(SHOWN)).text, /This browser does not run the library/);
    await undo();
  });
});

for (const browser of [firefox, chromium]) {
  if (!browser.program) continue;
  test(`${browser.name}, dark`, { timeout: 120000 }, async () => {
    const page = await browser.open('dark');
    try {
      for (const [device, width] of [['telephone', 390], ['desk', 1280]]) {
        await page.size(width, 900);
        await page.visit(PAGE);
        for (const [name, text] of PICTURES) {
          await shownFor(page, text);
          assert.deepEqual(await page.evaluate(CONTRAST, READ), [], name);
          await pictured(page, `${browser.name}-${device}-dark-${name}`);
        }
        await shownFor(page, strings(CASH, 'acde'));
        await page.evaluate(REVEALED);
        assert.deepEqual(await page.evaluate(CONTRAST, READ), []);
        await pictured(page, `${browser.name}-${device}-dark-revealed`);
        const ground = await page.evaluate('return getComputedStyle(document.body).backgroundColor;');
        assert.equal(ground, 'rgb(22, 22, 22)');
      }
    } finally {
      await page.stop();
    }
  });
}
