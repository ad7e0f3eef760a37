'use strict';
// Skeletons are packages too: the skeletons of printed skeletons are the same text.
const fs = require('fs');
const path = require('path');
const { test } = require('node:test');
const { run, same, withFolder, PACKAGES } = require('./support/helpers.js');
const { NAMES, isCompared } = require('./support/stored.js');

const BY_COMPILER = ['skeleton', '--no-cache', '--reader', 'typescript'];

/**
 * Packages whose skeletons have other skeletons, and why.
 *
 * @type {Record<string, string>}
 */
const OTHERWISE = {
  ...Object.fromEntries(['apart-expando', 'dts', 'expando-keywords', 'expando-quoted', 'expandos', 'instead-expando']
    .map((name) => [name, '`function f(): void {} f.a = 1;` exports `var a = 1` of a namespace, and the skeleton of that is `var a: number`'])),
  'apart-circle': 'of modules that export all of each other in a ring, one without declarations of its own is public only as long as another one has some',
  'empty-bodies': '`class C { constructor(readonly a = () => {}) {} }` has the property `a` without a type, which is an error of its own',
};

/** Replaces files by those of the same names in another folder. */
function replaceFiles(/** @type {string} */ folder, /** @type {string} */ by) {
  for (const entry of fs.readdirSync(by, { withFileTypes: true })) {
    const [from, to] = [by, folder].map((each) => path.join(each, entry.name));
    if (entry.isDirectory()) replaceFiles(to, from);
    else fs.copyFileSync(from, to);
  }
}

/** The skeletons of a package, and those of a copy whose modules are these skeletons; null where it has none. */
async function printedTwice(/** @type {string} */ name, /** @type {string} */ folder) {
  const [copy, printed] = ['copy', 'printed'].map((each) => path.join(folder, each));
  const cwd = path.join(PACKAGES, name);
  const first = await run([...BY_COMPILER, '.'], { cwd });
  if (first.status !== 0) return null;
  fs.cpSync(cwd, copy, { recursive: true });
  await run([...BY_COMPILER, '.', printed], { cwd });
  replaceFiles(copy, printed);
  return [first.out, (await run([...BY_COMPILER, '.'], { cwd: copy })).out];
}

for (const name of NAMES.filter((each) => isCompared(each))) {
  test(`the skeletons of the skeletons of ${name}`, () => withFolder(async (folder) => {
    const texts = await printedTwice(name, folder);
    if (!texts) return;
    const [first, second] = texts;
    if (name in OTHERWISE) same(first === second, false, `whether they are the same, although ${OTHERWISE[name]}`);
    else same(second, first, 'the text');
  }));
}
