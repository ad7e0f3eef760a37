'use strict';
// Declaration files, skeletons that the compiler checks, and pages.
const fs = require('fs');
const path = require('path');
const { test } = require('node:test');
const { declaredBoth } = require('./support/declared.js');
const { run, same, holds, withFolder, readOr, PACKAGES, DOCS } = require('./support/helpers.js');
const { expectedOf } = require('./support/stored.js');

test('declaration files beside skeletons', async () => {
  const { errors, differ, count } = await declaredBoth(PACKAGES);
  const told = [...errors.map((it) => `${it.name}: ${it.text}`), ...differ.map((it) => JSON.stringify(it))];
  same(told.join('\n'), '', 'what the compiler finds');
  holds(count > 80, `${count} modules have declaration files`);
});
test('skeleton --dts and --with-dts write files that are the same when they are read again', () => withFolder(async (folder) => {
  const names = (/** @type {string} */ part) => fs.readdirSync(path.join(folder, part)).sort().join(' ');
  const once = (/** @type {string[]} */ words, /** @type {string} */ part) => run(['skeleton', ...words, 'dts', path.join(folder, part)]);
  same((await once(['--dts'], 'a')).status, 0, 'the status');
  same(names('a'), 'mod.d.ts options.d.ts');
  same((await once(['--with-dts'], 'b')).status, 0, 'the status');
  same(names('b'), 'mod.d.ts mod.ts options.d.ts options.ts');
  const text = (/** @type {string} */ part) => fs.readFileSync(path.join(folder, part, 'mod.d.ts'), 'utf8');
  holds(!text('a').includes('as never') && text('a') === text('b'), 'no value stands in for another');
  const words = ['skeleton', '--dts', '--name', '@test/dts', '--version', '1.0.0', '--exports', './mod.d.ts', '.', path.join(folder, 'c')];
  same((await run(words, { cwd: path.join(folder, 'a') })).status, 0, 'the status where declaration files are read');
  same(text('c'), text('a'), 'the declaration file of a declaration file');
}));
test('the examples of the page', () => {
  const page = readOr(path.join(DOCS, 'guide.md'), '');
  for (const [title, name] of [['Declaration files', 'dts'], ['A preview', 'preview']]) {
    const [, example = title] = /```ts\n([^]*?)```/.exec(page.slice(page.indexOf(`\n## ${title}\n`))) || [];
    holds(readOr(expectedOf(name), '').includes(example), `the example of ${title} is what comes of ${name}`);
  }
});
test('a module without a declaration file', async () => {
  const { status, err } = await run(['skeleton', '--dts', 'dts-untold']);
  same(`${status} ${err.split('error[untold-type]').length > 8}`, '1 true', err);
});

for (const [name, wanted] of [['re-exports', ''], ['workspace', ''], ['apart-expando', 'typescript-2451'], ['apart-qualified', 'typescript-2304']]) {
  test(`check --verify of ${name}`, async () => {
    const { status, out } = await run(['check', '--verify', name]);
    same(status, wanted ? 1 : 0, `the status of\n${out}`);
    holds(!wanted || out.includes(wanted), out);
  });
}

for (const name of ['re-exports', 'several-messages', 'unicode', 'workspace', 'javascript-entry']) {
  test(`the page of ${name}`, () => withFolder(async (folder) => {
    const file = path.join(folder, 'page.html');
    await run(['report', name, file]);
    const text = fs.readFileSync(file, 'utf8');
    holds(!/<script[^>]|<link|@import|url\(|\bsrc=/.test(text), 'it stands alone');
    holds(text.includes('width=device-width'), 'it has the width of a phone');
    const tags = (/** @type {string} */ tag) => [text.split(`<${tag}`).length, text.split(`</${tag}>`).length];
    for (const tag of ['span', 'div', 'section', 'pre', 'ul', 'li', 'details']) same(tags(tag)[0], tags(tag)[1], `the tags of ${tag}`);
  }));
}

test('the page lists modules by folders, and each line may be led to', () => withFolder(async (folder) => {
  const names = ['a10.ts', 'a2.ts', 'part10/b.ts', 'part2/b.ts'];
  const write = (/** @type {string} */ name, /** @type {string} */ text) => {
    fs.mkdirSync(path.dirname(path.join(folder, name)), { recursive: true });
    fs.writeFileSync(path.join(folder, name), text);
  };
  for (const name of names) write(name, name === 'a2.ts' ? 'export const a: number = 1;\nexport const b = Math.max(1);\n' : 'export const a: number = 1;\n');
  write('mod.ts', names.map((name) => `export * from "./${name}";\n`).join(''));
  write('deno.json', '{ "name": "@test/page", "exports": "./mod.ts" }');
  const file = path.join(folder, 'page.html');
  await run(['report', '--types', folder, file]);
  const text = fs.readFileSync(file, 'utf8');
  const places = [...text.matchAll(/<section id="module-([^"]*)"/g)].map(([, name]) => name);
  same(places.join(' '), 'a2.ts a10.ts mod.ts part2_2Fb.ts part10_2Fb.ts', 'the order of modules');
  for (const each of ['href="#module-a2.ts-2"', 'id="module-a2.ts-2"', 'with messages only', '<code>export const b: number = Math.max(1);</code>', '(a preview, without what has messages)']) {
    holds(text.includes(each), `${each} stands in the page`);
  }
}));
test('a page with messages everywhere has a preview and its legend', async () => withFolder(async (folder) => {
  const file = path.join(folder, 'page.html');
  await run(['report', 'several-messages', file]);
  const text = fs.readFileSync(file, 'utf8');
  holds(text.includes('class="legend"') && text.includes('skeleton (a preview'), text.slice(0, 4000));
}));
