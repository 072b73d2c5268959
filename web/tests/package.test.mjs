// The package as a user takes it: packed, installed in a new folder without network, and its README followed.
import test from 'node:test';
import assert from 'node:assert/strict';
import fs from 'node:fs';
import os from 'node:os';
import path from 'node:path';
import { gzipSync } from 'node:zlib';
import { execFileSync, spawnSync } from 'node:child_process';
import { fileURLToPath } from 'node:url';

const WEB = fileURLToPath(new URL('..', import.meta.url));
const PACKAGE = path.join(WEB, 'out', 'package');
const { name, version } = JSON.parse(fs.readFileSync(path.join(PACKAGE, 'package.json'), 'utf8'));
const readme = fs.readFileSync(path.join(PACKAGE, 'README.md'), 'utf8');

const has = (program) => spawnSync(program, ['--version']).status === 0;

const inFolder = (body) => {
  const folder = fs.mkdtempSync(path.join(os.tmpdir(), 'package-'));
  try {
    return body(folder);
  } finally {
    fs.rmSync(folder, { recursive: true });
  }
};

// Installs the package in a folder as its README says.
const installed = (folder) => {
  const how = { cwd: folder, stdio: ['ignore', 'pipe', 'pipe'], env: { ...process.env, npm_config_offline: 'true', npm_config_cache: path.join(folder, 'cache'), npm_config_audit: 'false', npm_config_fund: 'false' } };
  execFileSync('npm', ['pack', '--silent', PACKAGE], how);
  fs.writeFileSync(path.join(folder, 'package.json'), '{"private":true}');
  const [command] = readme.match(/(?<=```sh\n)npm install .*/);
  execFileSync('npm', command.split(' ').slice(1), how);
};

// A block of code, and the lines that it says it prints.
const blocks = [...readme.matchAll(/```js\n([^]*?)```/g)].map(([, code]) => ({
  code, printed: code.split('\n').flatMap((line, i, lines) => {
    if (!line.startsWith('//')) return [];
    let first = i;
    while (lines[first].startsWith('//')) first--;
    return /console\.log|^\}$/.test(lines[first]) ? [line.slice(3)] : [];
  }),
}));

const withNpm = has('npm') ? {} : { skip: 'npm is not installed here, so the package was not installed' };

test('it installs without network, and its README is so', withNpm, () => inFolder((folder) => {
  installed(folder);
  assert.ok(blocks.length >= 4);
  for (const { code, printed } of blocks) {
    assert.ok(printed.length > 0, code);
    fs.writeFileSync(path.join(folder, 'example.mjs'), code);
    const said = execFileSync(process.execPath, [...process.execArgv, 'example.mjs'], { cwd: folder, encoding: 'utf8' });
    assert.deepEqual(said.trimEnd().split('\n'), printed);
  }
  assert.ok(readme.includes(`${name}-${version}.tgz`));
}));

const USE = `import { ALPHABET, BAD_ROW, checkMany, message, NULL_ROW, OTHER_HRP, type Column, type Rows, encode, decode, decodeElements, decodeStrict, encodeElements, fromWords, toWords, type AnyChecksum, check, correct, nearEdits, segwit, codex32, isLowered, Refused, Stopped, type Checksum, type Code, type Correction, type Edit, type NearEdit, type SecretText } from '${name}';
import * as small from '${name}/bech32';
const words: Uint8Array = small.fromWords([...toWords(new Uint8Array(5)), 0]), network: string = small.segwit.decode('a', 'bc').hrp + segwit.decode('a', null).hrp, smaller: small.Checksum = 'bech32';
const checksum: Checksum = decode('a').checksum;
const text: string = encode(checksum, 'a', new Uint8Array());
const { hrp, data }: { hrp: string; data: string } = check('bech32', text);
const long: AnyChecksum = 'longBech32m', held: Uint8Array = decodeStrict(long, text).bytes, whole: string = encodeElements(long, 'a', decodeElements(checksum, text).elements) + held.length;
const found: Correction | null = correct('bech32m', text, new Set([1]));
const place: number | undefined = found?.changes[0]?.place;
const [near]: readonly NearEdit[] = nearEdits(checksum, text), edit: Edit | undefined = near?.edit;
if (edit?.kind === 'swapped') console.log(edit.place + 1, edit.characters);
const version: number = segwit.decode(segwit.encode(hrp, 1, new Uint8Array(2))).version;
const parts: string = codex32.parse(data).identifier + codex32.propose(text)?.text;
const { threshold, identifier, shareIndex, bytes }: { threshold: number; identifier: string; shareIndex: string; bytes: Uint8Array } = codex32.share(text);
const derived: string = codex32.derive(new Set([codex32.encode(threshold, identifier, shareIndex, bytes)]), 's') + codex32.recover([text]).length + codex32.proposeLong(text)?.text + codex32.encodePayload(threshold, identifier, shareIndex, parts);
const shares: string[] = codex32.split(bytes, 2, 3), wiped: Uint8Array[] = codex32.split(bytes, 2, 3, null, { into: Uint8Array }), named: string[] = codex32.split(bytes, 2, 3, 'test', { into: String, random: bytes });
const secret: Uint8Array = codex32.recover([...shares, ...wiped, ...named]), own: Uint8Array = codex32.derive(wiped, 's', { into: Uint8Array });
const made: Uint8Array = codex32.encode(0, 'test', 's', secret, { into: Uint8Array }), again: string = codex32.encodePayload(0, 'test', 's', made, { into: String }) + codex32.share(own).identifier;
const kept: SecretText = again, characters: string = ALPHABET;
const lowered: boolean = isLowered;
try { decode(text); } catch (error) { if (error instanceof Refused) { const code: Code = error.code, at: number | null = error.place, which: number | null = error.which; console.log(code, at, which); } if (error instanceof Stopped) throw error; }
const column: Column = { bytes: new Uint8Array(), offsets: new BigInt64Array(1), validity: null, first: 0 }, rows: Uint8Array = checkMany(null, ['a', null]);
const decoded: { numbers: Uint8Array; versions: Uint8Array; hrpLengths: Uint8Array; programs: Rows<Uint8Array> } = segwit.decodeMany(column, 'bc');
const addresses: Rows<string> = segwit.encodeMany('bc', decoded.versions, decoded.programs).texts, address: string | null | undefined = addresses.at(-1);
console.log([NULL_ROW, BAD_ROW, OTHER_HRP].map(message), address, checkMany('bech32', addresses), addresses.toArray().concat([...addresses]), rows);
// @ts-expect-error
small.codex32;
// @ts-expect-error
segwit.decode('a', 5);
// @ts-expect-error
fromWords('qpzry');
// @ts-expect-error
checkMany('bech32', 'a12uel5l'.length);
// @ts-expect-error
encode('bech33', 'a', new Uint8Array());
// @ts-expect-error
decode(5);
// @ts-expect-error
codex32.encode(2, 'test', 0, bytes);
// @ts-expect-error
codex32.encodePayload(2, 'test', 'a', 5);
// @ts-expect-error
codex32.split('secret', 2, 3);
// @ts-expect-error
const wrong: string[] = codex32.split(bytes, 2, 3, null, { into: Uint8Array });
console.log(words, network, smaller, fromWords, place, version, parts, lowered, derived, kept, characters, whole, wrong);
`;

const withTypes = withNpm.skip ? withNpm : has('tsc') ? {} : { skip: 'TypeScript (tsc) is not installed here, so the types were not tried' };

test('its types are those of its functions', withTypes, () => inFolder((folder) => {
  installed(folder);
  fs.writeFileSync(path.join(folder, 'use.mts'), USE);
  const ran = spawnSync('tsc', ['--noEmit', '--strict', '--target', 'es2022', '--module', 'nodenext', '--moduleResolution', 'nodenext', 'use.mts'], { cwd: folder, encoding: 'utf8' });
  assert.equal(ran.status, 0, ran.stdout);
}));

test('what it exports is what its types name', async () => {
  const types = fs.readFileSync(path.join(PACKAGE, 'index.d.ts'), 'utf8');
  const named = [...types.matchAll(/^export (?:class|const|function) (\w+)/gm)].map(([, it]) => it);
  const exported = Object.keys(await import('../out/package/index.js'));
  assert.deepEqual(exported.sort(), named.sort());
});

// The files that one of the package imports, and those that these import.
const reached = (file, seen = new Set()) => {
  if (seen.has(file)) return seen;
  seen.add(file);
  const source = fs.readFileSync(path.join(PACKAGE, file), 'utf8');
  for (const [, other] of source.matchAll(/^(?:import|export) .* from '\.\/([^']+)';$/gm)) reached(other, seen);
  return seen;
};

test('the smaller entrance has all but codex32, and not its module', async () => {
  const small = await import('../out/package/bech32.js'), all = await import('../out/package/index.js');
  assert.deepEqual([...Object.keys(small), 'codex32'].sort(), Object.keys(all).sort());
  for (const it of Object.keys(small)) assert.equal(small[it], all[it], it);
  const named = fs.readFileSync(path.join(PACKAGE, 'bech32.d.ts'), 'utf8').match(/(?<=export \{)[^}]+/)[0].split(',').map((it) => it.trim()).filter(Boolean);
  assert.deepEqual(named.sort(), Object.keys(small).sort());
  assert.ok(reached('index.js').has('codex32_module.js'));
  assert.ok(!reached('bech32.js').has('codex32_module.js') && reached('bech32.js').has('bech32_module.js'));
});

const megabytes = (bytes) => `${(bytes / 1e6).toFixed(1)} MB`;
const sizeOf = (files) => [...files].reduce((sum, it) => sum + fs.statSync(path.join(PACKAGE, it)).size, 0);

test('README says how large it is', () => {
  const zipped = (files) => [...files].reduce((sum, it) => sum + gzipSync(fs.readFileSync(path.join(PACKAGE, it)), { level: 9 }).length, 0);
  for (const entrance of ['index.js', 'bech32.js']) {
    const files = reached(entrance), said = `${megabytes(sizeOf(files))}, or ${megabytes(zipped(files))} by gzip`;
    assert.ok(readme.includes(said), `${entrance}: ${said}`);
  }
});

// Node from 20.19 and 22.12 on loads an ES module by require.
const [major, minor] = process.versions.node.split('.').map(Number);
const requires = major > 22 || (major === 22 && minor >= 12) || (major === 20 && minor >= 19);

test('CommonJS takes it by import(), and by require where Node does that', () => inFolder((folder) => {
  const modules = path.join(folder, 'node_modules');
  fs.mkdirSync(modules);
  fs.cpSync(PACKAGE, path.join(modules, name), { recursive: true });
  const said = (code) => {
    fs.writeFileSync(path.join(folder, 'use.cjs'), code);
    return execFileSync(process.execPath, [...process.execArgv, 'use.cjs'], { cwd: folder, encoding: 'utf8', stdio: ['ignore', 'pipe', 'ignore'] });
  };
  const tried = "it.segwit.decode('BC1QW508D6QEJXTDG4Y5R3ZARVARY0C5XW7KV8F3T4', 'bc').version";
  for (const entrance of [name, `${name}/bech32`]) {
    assert.equal(said(`import('${entrance}').then((it) => console.log(${tried}));`), '0\n');
    if (requires) assert.equal(said(`const it = require('${entrance}'); console.log(${tried});`), '0\n');
  }
}));

test('a policy of the page has to allow WebAssembly, and nothing else is loaded', () => {
  assert.match(readme, /script-src 'self' 'wasm-unsafe-eval'/);
  for (const file of reached('index.js')) {
    const source = fs.readFileSync(path.join(PACKAGE, file), 'utf8').replace(/^(?:import|export) .* from '[^']+';$/gm, '');
    assert.doesNotMatch(source, /\bfetch\(|import\.meta|\brequire\(|\bimport\(|\beval\(|new Function/, file);
  }
});

test('putting it together twice gives the same bytes', () => inFolder((folder) => {
  execFileSync(process.execPath, [path.join(WEB, 'assemble.mjs'), folder]);
  for (const file of ['index.html', ...fs.readdirSync(PACKAGE).map((it) => path.join('package', it))]) {
    assert.ok(fs.readFileSync(path.join(folder, file)).equals(fs.readFileSync(path.join(WEB, 'out', file))), file);
  }
}));
