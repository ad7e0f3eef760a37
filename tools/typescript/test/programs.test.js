'use strict';
// Programs and compilers that fail, memory that runs out, and the examples of the page that run other tools.
const childProcess = require('child_process');
const fs = require('fs');
const path = require('path');
const { test } = require('node:test');
const { whole: ts } = require('../src/compiler/typescript.js');
const { sourceProgramFile } = require('../src/program/program.js');
const { run, same, holds, withFolder, readOr, COMPILER, LAUNCHER, PACKAGES, DOCS, TOP } = require('./support/helpers.js');

/** Programs in the place of fast check that fail in their ways. */
/** @type {[body: string, status: number, text: string][]} */
const PROGRAMS = [
  ['echo "error: out of memory" >&2; exit 3', 3, 'out of memory'],
  ['echo "error: input refused: table-fault 1" >&2; exit 2', 2, 'table-fault 1'],
  ['kill -9 $$', 5, 'SIGKILL'],
  ['exit 5', 5, 'status 5'],
];

for (const [body, wanted, text] of PROGRAMS) {
  test(`a program that says ${text}`, () => withFolder(async (folder) => {
    const program = path.join(folder, 'program');
    fs.writeFileSync(program, `#!/bin/sh\n${body}\n`, { mode: 0o755 });
    const { status, err } = await run(['check', 'variables'], { environment: { FAST_CHECK: program } });
    same(status, wanted, 'the status');
    holds(err.includes(text), err);
  }));
}
test('a program that is not there', async () => {
  const { status, err } = await run(['check', 'variables'], { environment: { FAST_CHECK: '/nowhere/program' } });
  same(status, 5, 'the status');
  holds(err.includes('does not start'), err);
});
test('the launcher, by a link, from elsewhere', () => withFolder(async (folder) => {
  const link = path.join(folder, 'fast-check-ts');
  fs.symlinkSync(LAUNCHER, link);
  const words = ['check', path.join(PACKAGES, 'variables')];
  const { status, stdout } = childProcess.spawnSync(link, words, { cwd: folder, encoding: 'utf8', input: '' });
  same(status, 0, 'the status');
  holds(/^1 file, 1 public module, 0 messages, /.test(stdout), stdout);
}));

/** Runs words in a process of its own that has some megabytes of memory, as Node tells it. */
function runWithin(/** @type {number} */ megabytes, /** @type {string[]} */ words) {
  const io = '{ cwd: process.cwd(), environment: process.env, out: process.stdout, err: process.stderr }';
  const body = `require('v8').getHeapStatistics = () => ({ heap_size_limit: ${megabytes} << 20 });
    require(${JSON.stringify(path.resolve(__dirname, '../src/cli/main.js'))}).main(${JSON.stringify(words)}, ${io}).then((status) => { process.exitCode = status; });`;
  return childProcess.spawnSync(process.execPath, ['-e', body], { cwd: PACKAGES, encoding: 'utf8', input: '' });
}

for (const words of [['check', '--verify', 'classes'], ['fix', '--dry', 'fixed']]) {
  test(`memory that runs out in ${words[0]}`, async () => {
    // What is kept of the sources lets the command itself do without the compiler, whose thread is to run out.
    await run(['check', words[2]]);
    const { status, stdout, stderr } = runWithin(16, words);
    same(status, 3, `the status of\n${stdout}${stderr}\nthat`);
    holds(stderr.includes('out of memory: TypeScript\'s compiler needs more than the 16 MB that Node has; `NODE_OPTIONS=--max-old-space-size=32`'), stderr);
  });
}

// ---- which compiler is taken: each run in a process of its own, since a process has one

const from = (/** @type {string} */ folder, /** @type {string[]} */ words, /** @type {NodeJS.ProcessEnv} */ environment = {}) => (
  childProcess.spawnSync(LAUNCHER, ['check', ...words, folder], { encoding: 'utf8', input: '', env: { ...process.env, ...environment } })
);
test('the compiler of the package comes first', () => withFolder(async (folder) => {
  fs.cpSync(path.join(PACKAGES, 'syntax-error'), folder, { recursive: true });
  fs.writeFileSync(path.join(folder, 'mod.ts'), 'export const a = ;\nexport const c = 1 satisfies;\n');
  const own = path.join(folder, 'node_modules/typescript');
  fs.mkdirSync(own, { recursive: true });
  fs.writeFileSync(path.join(own, 'index.js'), `module.exports = { ...require(${JSON.stringify(COMPILER)}), version: "5.1.99-own" };`);
  holds(from(folder, []).stderr.includes('by TypeScript 5.1.99-own'), 'its version is reported');
  same(from(folder, []).stderr.split('newest.sh').length, 2, 'how often a newer compiler is named');
  holds(!from(folder, ['--no-own-compiler']).stderr.includes('5.1.99-own'), '--no-own-compiler is obeyed');
  fs.writeFileSync(path.join(folder, 'mod.ts'), 'export const a = ;\n');
  holds(!from(folder, []).stderr.includes('newest.sh'), 'no newer compiler is named where none would read it');
  fs.writeFileSync(path.join(own, 'index.js'), 'module.exports = { version: "4.7.4" };');
  holds(from(folder, []).stderr.includes(`by TypeScript ${ts.version}`), 'one that does not serve is passed over');
}));
test('a run over unchanged sources loads no compiler', () => withFolder(async (folder) => {
  const [log, own] = [path.join(folder, 'log'), path.join(folder, 'compiler')];
  fs.mkdirSync(own);
  fs.writeFileSync(path.join(own, 'index.js'), `require('fs').appendFileSync(${JSON.stringify(log)}, 'loaded\\n'); module.exports = require(${JSON.stringify(COMPILER)});`);
  const environment = { TYPESCRIPT: own, XDG_CACHE_HOME: path.join(folder, 'cache') };
  // Of `check` the whole answer is kept, of `input` what the compiler answers: where imports lead, by aliases too, and which packages a workspace has.
  for (const [command, name] of [['check', 'classes'], ['input', 'aliases'], ['input', 'npm-workspace'], ['input', 'file-kinds']]) {
    const asked = () => childProcess.spawnSync(LAUNCHER, [command, '--reader', 'typescript', path.join(PACKAGES, name)], { encoding: 'utf8', input: '', env: { ...process.env, ...environment } });
    fs.rmSync(log, { force: true });
    const first = asked();
    same(readOr(log, ''), 'loaded\n', `what is loaded at first by\n${first.stdout.slice(0, 200)}${first.stderr}\nwhich`);
    same(asked().stdout.replace(/\d\.\d\d s/, ''), first.stdout.replace(/\d\.\d\d s/, ''), 'the answer');
    same(readOr(log, ''), 'loaded\n', `what is loaded behind it by ${command} of ${name}`);
  }
}));
test('a variable TYPESCRIPT that names nothing', () => {
  const { status, stderr } = from(path.join(PACKAGES, 'aliases'), [], { TYPESCRIPT: '/nowhere' });
  same(status, 2, 'the status');
  holds(stderr.includes('there is no TypeScript in /nowhere, which the variable TYPESCRIPT names'), stderr);
});
test('a compiler that does not serve', () => withFolder(async (folder) => {
  fs.writeFileSync(path.join(folder, 'index.js'), 'module.exports = { version: "4.7.4" };');
  const { status, stderr } = from(path.join(PACKAGES, 'variables'), [], { TYPESCRIPT: folder });
  same(status, 2, 'the status');
  holds(stderr.includes('TypeScript 4.7.4 does not serve'), stderr);
}));

// ---- the examples of the page for many packages and for the package to install, where what they need is there

/** Whether a program is there. */
function isThere(/** @type {string} */ program, /** @type {string[]} */ words) {
  return childProcess.spawnSync(program, words, { stdio: 'ignore' }).status === 0;
}

const page = readOr(path.join(DOCS, 'registry.md'), '');
const guide = readOr(path.join(DOCS, 'guide.md'), '');
const hasDask = isThere('/usr/bin/python3', ['-c', 'import dask, distributed, psutil']);
test('the example of many packages', { skip: !hasDask && 'Dask is not there' }, () => withFolder((folder) => {
  const [, words = '', last = ''] = /\n {4}tools\/registry\/registry\.py --out results\.jsonl (.* \.\.)\n {4}(.*) s\n/.exec(page) || [];
  const all = words.split(' ').slice(0, -1);
  const { status, stdout, stderr } = childProcess.spawnSync(path.join(TOP, 'tools/registry/registry.py'), ['--out', path.join(folder, 'results.jsonl'), ...all],
    { cwd: TOP, encoding: 'utf8', input: '' });
  same(`${stdout}${stderr}`.trim().split('\n').slice(-1)[0].replace(/[\d.]+ s$/, ''), last.replace(/[\d.]+$/, ''), 'its last line');
  same(status, 0, 'the status');
  same(fs.readFileSync(path.join(folder, 'results.jsonl'), 'utf8').trim().split('\n').length, all.length, 'its lines');
}));
const hasDpkg = ['dpkg-shlibdeps', 'dpkg-deb', 'strip'].every((it) => isThere(it, ['--version']));
const source = sourceProgramFile(process.env);
const lacks = !hasDpkg ? 'dpkg-dev is not there' : !source && 'fast-check-source is not built';
test('the example of the package to install', { skip: lacks }, () => withFolder((folder) => {
  const env = { ...process.env, FAST_CHECK_SOURCE: source || '' };
  const { status, stdout, stderr } = childProcess.spawnSync(path.join(TOP, 'tools/debian/build.sh'), [folder], { env, encoding: 'utf8', input: '' });
  same(status, 0, `the status of\n${stderr}\nthat`);
  childProcess.execFileSync('dpkg-deb', ['-x', stdout.trim(), folder]);
  const example = '/usr/share/doc/nagdrez/examples/package';
  holds(guide.includes(`    fast-check-ts check ${example}\n`), 'the page has it');
  const environment = { ...process.env, FAST_CHECK: path.join(folder, 'usr/lib/nagdrez/fast-check'), XDG_CACHE_HOME: folder };
  const said = childProcess.spawnSync(path.join(folder, 'usr/lib/nagdrez/fast-check-ts'), ['check', path.join(folder, example)], { env: environment, encoding: 'utf8', input: '' });
  holds(/\n4 files, 1 message, .* s\n$/.test(said.stdout), `${said.stdout}${said.stderr}`);
}));
