'use strict';
// The language server where the program reads TypeScript: no compiler is loaded but for what it words.
const assert = require('assert');
const fs = require('fs');
const path = require('path');
const { test } = require('node:test');
const { Progress } = require('../../src/cli/progress.js');
const { diagnosticsOf } = require('../../src/lsp/diagnostics.js');
const { analyse } = require('../../src/program/answer.js');
const { sourceProgramFile } = require('../../src/program/program.js');
const { COMPILER, PACKAGES, withFolder } = require('../support/helpers.js');
const { Client, withFiles } = require('./client.js');

const PROGRAM = sourceProgramFile(process.env);
const skip = !PROGRAM && 'fast-check-source is not built';
const FILES = {
  'mod.ts': 'export { two } from "./two.ts";\nexport const one = Math.random();\n',
  'two.ts': 'export const two = () => { return Math.random(); };\n',
};
const SLOW = 'missing-explicit-return-type';

/** @typedef {ReturnType<typeof asideIn>} Aside */

/** What a server is started with, of which nothing lies in its folder: a compiler that notes in a file that it is loaded, and a folder for what lies there while a check is at work. */
function asideIn(/** @type {string} */ folder) {
  const [compiler, temporary, kept, note] = ['compiler', 'temporary', 'kept', 'loaded'].map((name) => path.join(folder, name));
  for (const each of [compiler, temporary, kept]) fs.mkdirSync(each);
  fs.writeFileSync(path.join(compiler, 'index.js'), `require('fs').writeFileSync(${JSON.stringify(note)}, '');\nmodule.exports = require(${JSON.stringify(COMPILER)});\n`);
  const environment = { TYPESCRIPT: compiler, TMPDIR: temporary, XDG_CACHE_HOME: kept, FAST_CHECK_SOURCE: PROGRAM || '' };
  return { environment, isLoaded: () => fs.existsSync(note), forget: () => fs.rmSync(note), isClean: () => !fs.readdirSync(temporary).length };
}

/** A test with a client of a folder with some files, whose server reads by the program. */
function tested(/** @type {string} */ name, /** @type {Record<string, string>} */ files, /** @type {(client: Client, aside: Aside, folder: string) => Promise<void>} */ call) {
  test(name, { skip }, () => withFolder((at) => {
    const aside = asideIn(at);
    return withFiles(files, (client, folder) => call(client, aside, folder), aside.environment);
  }));
}

tested('saved and unsaved texts are read without a compiler', FILES, async (client, aside, folder) => {
  await client.begin();
  await client.until(() => client.shown('mod.ts').length && client.shown('two.ts').length, 'diagnostics');
  assert.deepStrictEqual([client.shown('mod.ts'), client.shown('two.ts')], [['missing-explicit-type 1:13'], [`${SLOW} 0:13`]]);
  const [{ relatedInformation: [{ location }] = [] }] = client.diagnostics.get(client.uri('two.ts')) || [];
  assert.deepStrictEqual([location.uri, location.range.start], [client.uri('mod.ts'), { line: 0, character: 20 }]);
  client.open('mod.ts', FILES['mod.ts']);
  client.change('mod.ts', { range: { start: { line: 1, character: 0 }, end: { line: 1, character: 0 } }, text: '// \u{1d4b3}\n\n' });
  await client.until(() => client.shown('mod.ts').join() === 'missing-explicit-type 3:13', 'the edit');
  client.open('two.ts', `\ufeff${FILES['two.ts']}`);
  await client.until(() => client.shown('two.ts').join() === `${SLOW} 0:14`, 'a text with a mark of byte order');
  client.change('two.ts', { text: 'export const two = (): string => "\ud800";\n' });
  await client.until(() => !client.shown('two.ts').length, 'the end of the message');
  client.open('none.ts', 'export const = 1;\n');
  client.open('deno.json', '{');
  client.change('mod.ts', { text: 'export { slow } from "./none.ts";\nexport const last = Math.random();\n' });
  client.change('mod.ts', { text: 'export const last = Math.random();\n' });
  await client.until(() => client.shown('mod.ts').join() === 'missing-explicit-type 0:13', 'the last text');
  assert.strictEqual(client.diagnostics.has(client.uri('deno.json')), false);
  assert.strictEqual(fs.readFileSync(path.join(folder, 'mod.ts'), 'utf8'), FILES['mod.ts']);
  assert.strictEqual(await client.end(), 0);
  assert.deepStrictEqual([aside.isLoaded(), aside.isClean(), client.said], [false, true, '']);
});

tested('what is no syntax is said by the compiler, which reads from then on, and a later server begins by the program', FILES, async (client, aside, folder) => {
  await client.begin();
  client.open('mod.ts', FILES['mod.ts']);
  await client.until(() => client.shown('mod.ts').length, 'diagnostics');
  assert.strictEqual(aside.isLoaded(), false);
  client.change('mod.ts', { text: 'export const = 1;\n' });
  await client.until(() => client.shown('mod.ts').some((it) => it.startsWith('syntax-error')), 'the syntax error');
  assert.strictEqual(aside.isLoaded(), true);
  client.change('mod.ts', { text: 'export function slow() { return Math.random(); }\n' });
  await client.until(() => client.shown('mod.ts').join() === `${SLOW} 0:16`, 'the mended text');
  assert.strictEqual(await client.end(), 0);
  aside.forget();
  const later = new Client(folder, aside.environment);
  try {
    await later.begin();
    await later.until(() => later.shown('mod.ts').length, 'what a later server says');
    assert.strictEqual(await later.end(), 0);
  } finally {
    later.child.kill('SIGKILL');
  }
  assert.deepStrictEqual([aside.isLoaded(), aside.isClean()], [false, true]);
});

/** A package of so many modules, and one that exports them. */
function packageOf(/** @type {number} */ count) {
  const names = Array.from({ length: count }, (_, at) => `m${at}`);
  const modules = Object.fromEntries(names.map((name) => [`${name}.ts`, `export const ${name}: number = 1;\n`]));
  return { ...modules, 'mod.ts': names.map((name) => `export * from "./${name}.ts";\n`).join('') };
}

for (const [count, reader] of /** @type {[number, string][]} */ ([[120, 'program'], [510, 'compiler']])) {
  tested(`a package of ${count} modules is read by the ${reader} behind an edit`, packageOf(count), async (client, aside) => {
    await client.begin({}, { workspaceFolders: [] });
    client.open('m0.ts', '\nexport const m0 = Math.random();\n');
    await client.until(() => client.shown('m0.ts').join() === 'missing-explicit-type 1:13', 'diagnostics');
    assert.strictEqual(aside.isLoaded(), false);
    client.change('m0.ts', { text: 'export const m0 = Math.random();\n' });
    await client.until(() => client.shown('m0.ts').join() === 'missing-explicit-type 0:13', 'the edit');
    assert.deepStrictEqual([aside.isLoaded(), await client.end()], [reader === 'compiler', 0]);
  });
}

/** A program that stops at its first run, and notes the number of the process; behind it the other one runs. */
function stoppingIn(/** @type {string} */ folder) {
  const [program, note] = [path.join(folder, 'stopping'), path.join(folder, 'stopped')];
  fs.writeFileSync(program, `#!/bin/sh\n[ -e ${note} ] && exec ${PROGRAM} "$@"\necho $$ > ${note}.part\nmv ${note}.part ${note}\nexec sleep 60\n`, { mode: 0o755 });
  return { program, pid: () => (fs.existsSync(note) ? Number(fs.readFileSync(note, 'utf8')) : 0) };
}

/** Whether a process is there. */
function isThere(/** @type {number} */ pid) {
  try {
    return process.kill(pid, 0);
  } catch {
    return false;
  }
}

/** Waits until a test holds. */
async function until(/** @type {() => unknown} */ test, /** @type {string} */ what) {
  for (let turn = 0; turn < 1000 && !test(); turn++) await new Promise((resolve) => setTimeout(resolve, 20));
  assert.ok(test(), what);
}

test('an edit ends the program that is at work, and what was written for it is removed', { skip }, () => withFolder((at) => {
  const [aside, { program, pid }] = [asideIn(at), stoppingIn(at)];
  return withFiles(FILES, async (client) => {
    await client.begin({}, { workspaceFolders: [] });
    client.open('mod.ts', 'export const a = Math.random();\n');
    await until(pid, 'the program is at work');
    assert.strictEqual(aside.isClean(), false);
    client.change('mod.ts', { text: '\nexport const a = Math.random();\n' });
    await client.until(() => client.shown('mod.ts').join() === 'missing-explicit-type 1:13', 'the edit');
    await until(() => !isThere(pid()), 'the program is ended');
    assert.deepStrictEqual([aside.isClean(), client.logs.filter(({ type }) => type === 1)], [true, []]);
    assert.strictEqual(await client.end(), 0);
  }, { ...aside.environment, FAST_CHECK_SOURCE: program });
}));

test('a signal ends the server, and what was written for the program is removed', { skip }, () => withFolder((at) => {
  const [aside, { program, pid }] = [asideIn(at), stoppingIn(at)];
  return withFiles(FILES, async (client) => {
    await client.begin({}, { workspaceFolders: [] });
    client.open('mod.ts', 'export const a = Math.random();\n');
    await until(pid, 'the program is at work');
    client.child.kill('SIGTERM');
    assert.deepStrictEqual([await client.status, aside.isClean()], [143, true]);
    process.kill(pid());
  }, { ...aside.environment, FAST_CHECK_SOURCE: program });
}));

test('related places are those of the other reader', { skip }, async () => {
  let count = 0;
  for (const name of fs.readdirSync(PACKAGES)) {
    const cwd = path.join(PACKAGES, name);
    const shown = async (/** @type {string} */ reader) => {
      const world = await analyse(cwd, { reader }, { cwd, environment: { ...process.env, FAST_CHECK_SOURCE: PROGRAM || '' }, progress: new Progress({ write: () => true }, false) }).catch(() => null);
      return world && { isBySource: world.isBySource, all: [...diagnosticsOf({ dir: cwd, world, messages: world.messages }, cwd)] };
    };
    const own = await shown('source');
    if (!own || !own.isBySource || !own.all.length) continue;
    const other = await shown('typescript');
    if (!other) continue;
    assert.deepStrictEqual(own.all, other.all, name);
    count += JSON.stringify(own.all).split('relatedInformation').length - 1;
  }
  assert.ok(count > 10, `${count} related places`);
});
