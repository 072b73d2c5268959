// Makes the pages and the JavaScript package of modules that are built: node assemble.mjs [OUT [MODULES]]
//
// MODULES has bech32_c.wasm, codex32_c.wasm, and both as NAME.lowered.wasm: where it is not named, it is web/out if web/build
// has built them there, else dist/. OUT, or web/out, gets index.html, share.html and package/. `npm install ./web` runs this.
// Wants Node 20 or later, and nothing else.
import fs from 'node:fs';
import path from 'node:path';
import { createHash } from 'node:crypto';

const HERE = import.meta.dirname ?? path.dirname(new URL(import.meta.url).pathname);
const MODULES = ['bech32_c', 'codex32_c'].flatMap((name) => [`${name}.wasm`, `${name}.lowered.wasm`]);
const BUILT = path.join(HERE, 'out');
const isBuilt = MODULES.every((name) => fs.existsSync(path.join(BUILT, name)));
const [out = BUILT, modules = isBuilt ? BUILT : path.join(HERE, '..', 'dist')] = process.argv.slice(2);

const read = (...names) => fs.readFileSync(path.join(HERE, ...names), 'utf8');
const sha256 = (data, form) => createHash('sha256').update(data).digest(form);
const wasm = (name) => fs.readFileSync(path.join(modules, `${name}.wasm`));

// Puts values in for the words @NAME@ of a text, each of which has to be there.
const filled = (text, values) => {
  for (const [name, value] of Object.entries(values)) {
    if (!text.includes(`@${name}@`)) throw new Error(`@${name}@ is missing`);
    text = text.replaceAll(`@${name}@`, () => value);
  }
  return text;
};

const base64 = (name) => wasm(name).toString('base64');

// The sources of the modules, with both forms of each put in.
const moduleSource = (name) => filled(read('src', `${name}_module.js`), {
  [`${name.toUpperCase()}_C`]: base64(`${name}_c`), [`${name.toUpperCase()}_C_LOWERED`]: base64(`${name}_c.lowered`),
});
const MODULE_FILES = ['bech32', 'codex32'];

// ---- the pages

// The files that a page's script is made of, each behind those that it imports.
const LIBRARY = ['declared', 'refusals', 'reasons', 'instance', 'lists', 'calls', 'descriptors', 'library', 'compiling', 'bech32_module', 'codex32_module', 'modules'].map((name) => `src/${name}.js`);
const SAYING = ['words', 'sentences', 'tried', 'links', 'typed', 'parts', 'forms', 'others', 'beginnings', 'pair', 'chance', 'reading', 'kinds',
  'saying', 'codex32', 'offers', 'texts', 'liquid', 'lightning', 'described', 'strings', 'shares', 'answer', 'shown', 'asking', 'fields'];
const PAGES = {
  'index.html': { template: 'page.html', styles: ['page.css'], scripts: [...SAYING, 'copy', 'page'] },
  'share.html': {
    template: 'share.html', styles: ['page.css', 'share.css'],
    scripts: [...SAYING, 'network', 'splitting', 'collecting', 'sheets', 'split', 'recover', 'share'],
  },
};

const variable = (file) => `$${path.basename(file, '.js')}`;

// A file as a function that returns what it exports: a script in a page that is read from a disk may import nothing. `known`
// has the names that each file before it exports, and gets its own.
const asFunction = (file, source, known) => {
  const exported = [], names = new Set();
  const needed = (list, from) => {
    const missing = list.split(', ').filter((name) => !known.get(variable(from))?.has(name));
    if (missing.length) throw new Error(`${file}: ${from} does not export ${missing.join(', ')}, or not as the first name of a line`);
    return list.split(', ');
  };
  const body = source
    .replace(/^import \{ ([^}]+) \} from '([^']+)';$/gm, (_, list, from) => `const { ${needed(list, from).join(', ')} } = ${variable(from)};`)
    .replace(/^export \{ ([^}]+) \} from '([^']+)';$/gm, (_, list, from) => {
      exported.push(...needed(list, from).map((name) => `${name}: ${variable(from)}.${name}`));
      for (const name of needed(list, from)) names.add(name);
      return '';
    })
    .replace(/^export (const|class) (\w+)/gm, (_, kind, name) => {
      exported.push(name);
      names.add(name);
      return `${kind} ${name}`;
    });
  if (/^(import|export)\b/m.test(body)) throw new Error(`${file} has an import or an export in another form`);
  known.set(variable(file), names);
  return `const ${variable(file)} = (() => {\n${body}return { ${exported.join(', ')} };\n})();\n`;
};

const sourceOf = (file) => {
  const name = MODULE_FILES.find((it) => file === `src/${it}_module.js`);
  return name ? moduleSource(name) : read(file);
};

const script = (names) => {
  const files = [...LIBRARY, ...names.map((name) => `page/${name}.js`)];
  const known = new Map();
  const parts = files.map((file) => asFunction(file, sourceOf(file), known));
  const text = `'use strict';\n{\n${parts.join('')}}\n`;
  if (/<\/script|<!--/i.test(text)) throw new Error('the script has words that end a script');
  return text;
};

// What the page may do: run this script and these modules, and show by this style. Nothing is loaded, sent or framed.
const policy = (js, css) => [
  "default-src 'none'", `script-src 'sha256-${sha256(js, 'base64')}' 'wasm-unsafe-eval'`,
  `style-src 'sha256-${sha256(css, 'base64')}'`, "base-uri 'none'", "form-action 'none'",
  "require-trusted-types-for 'script'", "trusted-types 'none'",
].join('; ');

const page = ({ template, styles, scripts }, version) => {
  const js = script(scripts), css = styles.map((name) => read('page', name)).join('');
  const sums = ['bech32_c', 'codex32_c'].map((name) => `${name} ${sha256(wasm(name), 'hex')}`).join(', ');
  const values = { POLICY: policy(js, css), STYLE: css, VERSION: version, SUMS: sums, SCRIPT: js };
  return filled(read('page', template), values);
};

// ---- the package

// The file of this folder, which names what stands in out/package, as it is in there.
const manifest = () => {
  const text = read('package.json');
  const own = text.replaceAll('"./out/package/', '"./').replace('["out/package"]', '["*.js", "*.d.ts"]').replace(/^ *"scripts": .*\n/m, '');
  if (/out\/package|"scripts"/.test(own)) throw new Error('package.json has another form');
  return own;
};

const packageFiles = () => {
  const files = { 'package.json': manifest(), 'README.md': read('README.md') };
  for (const name of MODULE_FILES) files[`${name}_module.js`] = moduleSource(name);
  const own = ['index', 'bech32', 'started', 'declared', 'library', 'calls', 'lists', 'descriptors', 'columns', 'instance', 'reasons', 'refusals',
    'compiling', 'modules'].map((name) => `${name}.js`);
  for (const name of [...own, 'index.d.ts', 'bech32.d.ts', 'refusals.d.ts']) files[name] = read('src', name);
  const licence = path.join(HERE, '..', 'LICENSE');
  if (fs.existsSync(licence)) files.LICENSE = fs.readFileSync(licence, 'utf8');
  return files;
};

const { version } = JSON.parse(read('package.json'));
const folder = path.join(out, 'package');
fs.rmSync(folder, { recursive: true, force: true });
fs.mkdirSync(folder, { recursive: true });
for (const [name, text] of Object.entries(packageFiles())) fs.writeFileSync(path.join(folder, name), text);
for (const [name, parts] of Object.entries(PAGES)) fs.writeFileSync(path.join(out, name), page(parts, version));
