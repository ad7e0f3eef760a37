'use strict';
// `--reader source`: beside the other reader, with the program itself; and with a program in its place that prints the lines which the gate compares the proved one's with.
const assert = require('assert');
const childProcess = require('child_process');
const fs = require('fs');
const os = require('os');
const path = require('path');
const { after, test } = require('node:test');
const { sourceProgramFile } = require('../src/program/program.js');
const { isMarked, restored } = require('../src/skeleton/restored.js');
const { run, same, holds, readOr, untimed, withFolder, write, LAUNCHER, PACKAGES, TOP } = require('./support/helpers.js');
const { NAMES: STORED, NEWER, READS_NONE, expectedOf, withoutClosing } = require('./support/stored.js');

const PROGRAM = sourceProgramFile(process.env);
const skip = !PROGRAM && 'fast-check-source is not built';

const CRATE = path.join(TOP, 'crates/fast_check_source');
// The folders of the stored run, without the words that name texts: the last two after `--input` and `--skeleton`. The last one has two modules, and a line for each.
const NAMES = fs.readFileSync(path.join(CRATE, 'args'), 'utf8').replace(/^--text\n.*\n.*\n/gm, '').trim().split('\n').filter((it) => !it.startsWith('--'));
const INPUT = '[ "$1" = --input ] && [ "${2##*/}" = package ] && tail -n 3 stdout | head -n 1';
const ANSWERS = 'if [ "$1" = --skeleton ]; then tail -n 2 stdout; else sed -n "$(grep -m 1 -nx "${1##*/}" args | cut -d : -f 1)p" stdout; fi';

/** Runs words in the folder of the crate's data, with a program that prints what is wanted of a folder. */
function runThere(/** @type {string[]} */ words, body = ANSWERS) {
  return new Promise((resolve, reject) => withFolder(async (folder) => {
    const program = path.join(folder, 'program');
    fs.writeFileSync(program, `#!/bin/sh\ncd ${CRATE} && ${body}\n`, { mode: 0o755 });
    resolve(await run(words, { cwd: path.join(CRATE, 'data'), environment: { FAST_CHECK_SOURCE: program } }));
  }).catch(reject));
}

test('the program has a line for each folder', () => same(fs.readFileSync(path.join(CRATE, 'stdout'), 'utf8').trim().split('\n').length, NAMES.length + 1));
test('check --reader source', async () => {
  const { status, out } = await runThere(['check', '--reader', 'source', 'other']);
  same(status, 1, 'the status');
  holds(out.includes('error[missing-explicit-return-type]') && out.includes('--> other/mod.ts:1:17'), out);
});
test('check --reader source of what has nothing to report', async () => {
  const { status, out } = await runThere(['check', '--reader', 'source', 'package']);
  same(status, 0, 'the status');
  holds(out.includes('2 public modules, 0 messages'), out);
});
test('skeleton --reader source', async () => {
  const { status, out } = await runThere(['skeleton', '--reader', 'source', 'package']);
  same(status, 0, 'the status');
  holds(out.includes('// src/index.ts\n') && out.includes('export const shapes: Shape[]'), out);
});
test('input --reader source', async () => {
  const { status, out } = await runThere(['input', '--reader', 'source', 'package'], INPUT);
  same(status, 0, 'the status');
  const { modules, pending } = JSON.parse(out);
  same(modules.map((/** @type {[string, unknown]} */ [specifier]) => specifier).join(' '), 'file:///src/index.ts file:///src/shapes.ts');
  same(pending.length, 1, 'how many packages are handed in');
});
const REFUSED = '{"answers":[],"errors":[{"path":"mod.ts","line":1,"column":8,"code":"syntax-error","message":"this cannot stand here"}],"faults":[],"warnings":[],"packages":[],"files":[],"same":[]}';
test('what the program refuses the compiler reads', async () => {
  const { status, out } = await runThere(['check', '--reader', 'source', 'other'], `echo '${REFUSED}'; exit 2`);
  same(status, 1, 'the status');
  holds(out.includes('error[missing-explicit-return-type]'), out);
});
test('input of what the program refuses is that of the compiler', async () => {
  const body = `echo '${REFUSED.replace('"answers":[]', '"input":{"graph":{},"modules":[]}')}'; exit 2`;
  const [own, other] = [await runThere(['input', '--reader', 'source', 'other'], body), await runThere(['input', '--reader', 'typescript', 'other'], body)];
  same(own.status, 0, 'the status');
  same(own.out, other.out);
});
test('a program that fails', async () => {
  const { status, err } = await runThere(['check', '--reader', 'source', 'other'], 'echo "error: out of memory" >&2; exit 3');
  same(status, 3, 'the status');
  holds(err.includes('out of memory'), err);
});
for (const words of [['--verify', 'other'], ['--rules', 'deno', 'other'], ['other/mod.ts']]) {
  test(`--reader source with ${words.join(' ')}`, async () => {
    const { status, err } = await runThere(['check', '--reader', 'source', ...words]);
    same(status, 2, 'the status');
    holds(err.includes('--reader source '), err);
  });
}
test('a reader that is not there', async () => {
  const { status, err } = await runThere(['check', '--reader', 'swc', 'other']);
  same(status, 2, 'the status');
  holds(err.includes('there is no reader swc: typescript, source'), err);
});

test('a program of another version', async () => {
  const { status, err } = await runThere(['check', '--reader', 'source', 'other'], `echo '{"answers":[],"errors":[],"faults":[],"warnings":[]}'`);
  same(status, 5, 'the status');
  holds(err.includes('it is of another version'), err);
});

// ---- which reader it is

for (const words of [['check', 'other'], ['skeleton', 'other'], ['diff', 'other', 'other'], ['input', 'other']]) {
  test(`${words[0]} reads by the program where it is there`, async () => {
    const body = 'echo "error: out of memory" >&2; exit 3';
    same((await runThere(words, body)).status, 3, 'the status');
    holds((await runThere([...words, '--reader', 'typescript'], body)).status < 3, 'the compiler reads too');
  });
}
test('check reads by the compiler where an earlier run had something to say by its words', () => withFolder(async (folder) => {
  const [program, environment] = [path.join(folder, 'program'), { XDG_CACHE_HOME: path.join(folder, 'kept') }];
  write(path.join(folder, 'odd'), { 'mod.ts': 'import "nowhere";\nexport const one: number = 1;\n' });
  const ran = async (/** @type {string} */ body, /** @type {string} */ text) => {
    fs.writeFileSync(program, `#!/bin/sh\n${body}\n`, { mode: 0o755 });
    fs.appendFileSync(path.join(folder, 'odd/mod.ts'), text);
    return (await run(['check', 'odd'], { cwd: folder, environment: { ...environment, FAST_CHECK_SOURCE: program } })).status;
  };
  same(await ran(`echo '${REFUSED}'; exit 2`, ''), 0, 'the status by the compiler behind the program');
  same(await ran('exit 3', '// changed\n'), 0, 'the status by the compiler alone');
}));
test('check reads by the compiler where the program is not there', () => withFolder(async (folder) => {
  const program = path.join(folder, 'fast-check');
  fs.symlinkSync(path.resolve(process.env.FAST_CHECK || ''), program);
  const asked = { cwd: path.join(CRATE, 'data'), environment: { FAST_CHECK: program } };
  same((await run(['check', 'other'], asked)).status, 1, 'the status');
  same((await run(['check', '--reader', 'source', 'other'], asked)).status, 5, 'the status where the program is asked for');
}));

// ---- beside the other reader

// What the compiler's reader keeps of the packages, so that one run of each loads it.
const KEPT = fs.mkdtempSync(path.join(os.tmpdir(), 'readers-'));
after(() => fs.rmSync(KEPT, { recursive: true }));

/** What both readers say, by some words. */
async function bothSay(/** @type {string[]} */ words, /** @type {string} */ cwd) {
  const said = async (/** @type {string[]} */ ...more) => {
    const { status, out, err } = await run([...words, ...more, '.'], { cwd, environment: { FAST_CHECK_SOURCE: PROGRAM || '', XDG_CACHE_HOME: KEPT } });
    return `status ${status}\n${out}$ standard error\n${err}`;
  };
  return [await said('--no-cache', '--reader', 'source'), await said('--reader', 'typescript')];
}

test('both readers say the same in diff', { skip }, async () => {
  for (const [old, now] of [['classes', 'enums'], ['classes', 'classes'], ['workspace', 'workspace-messages']]) {
    const said = async (/** @type {string} */ reader) => {
      const { status, out, err } = await run(['diff', '--no-cache', '--reader', reader, old, now], { environment: { FAST_CHECK_SOURCE: PROGRAM || '' } });
      return `status ${status}\n${out}$ standard error\n${err}`;
    };
    same(await said('source'), await said('typescript'), `${old} ${now}`);
  }
});

// Texts that both readers refuse, and beside them those that are next to them and are read.
const REFUSED_TEXTS = [
  'namespace N', 'export namespace N;', 'module M;', 'declare namespace N;', 'export declare namespace N.M;', 'export class C { static static a = 1; }',
  'export class C { static static static: number; }', 'export type T = `x${', 'export const a: string = `x${', 'export const a: string = `x${1}${',
];
const READ_TEXTS = [
  'export namespace N {}', 'export declare namespace N.M {}', 'declare module "m";', 'export class C { static static: number; }',
  'export class C { static readonly static: number; }', 'export type T = `x${string}`;', 'export const a: string = `x${1}`;',
];
for (const [isRefused, texts] of /** @type {[boolean, string[]][]} */ ([[true, REFUSED_TEXTS], [false, READ_TEXTS]])) {
  for (const text of texts) {
    test(`both readers ${isRefused ? 'refuse' : 'read'} ${text}`, { skip }, () => withFolder(async (folder) => {
      write(folder, { 'mod.ts': `${text}\n` });
      const ran = childProcess.spawnSync(PROGRAM || '', [folder], { encoding: 'utf8' });
      same(ran.status === 2, isRefused, `what the program says: ${ran.stdout}`);
      const [own, other] = await bothSay(['check'], folder);
      same(own, other, 'what is said');
      same(other.startsWith('status 2\n'), isRefused, other);
    }));
  }
}

// Forms that an older compiler does not read, and a package that is nested deeper than the JSON that the other reader sends.
const isReadByOne = (/** @type {string} */ name) => name === 'deep' || (READS_NONE && NEWER.includes(name) && !/const|dts/.test(name));
const WORDS = [['check', '--list-externals', '--json'], ['skeleton']];
for (const name of STORED.filter((it) => !isReadByOne(it))) {
  test(`both readers say the same of ${name}`, { skip }, async () => {
    for (const words of WORDS) same(...await bothSay(words, path.join(PACKAGES, name)), words.join(' '));
  });
}
for (const [name, ...words] of [['baseline', '--baseline', 'known.jsonl'], ['several-messages', '--allow', 'missing-explicit-type'], ['ignored', '--no-ignore'], ['ignored', '--format', 'sarif']]) {
  test(`both readers say the same of ${name} with ${words.join(' ')}`, { skip }, async () => same(...await bothSay(['check', ...words], path.join(PACKAGES, name))));
}
for (const name of STORED.filter((it) => isReadByOne(it) && it !== 'deep')) {
  test(`${name} is read as by a newer compiler`, { skip }, async () => {
    const [own] = await bothSay(['check'], path.join(PACKAGES, name));
    const [said] = withoutClosing(own).split('$ standard error');
    holds(readOr(expectedOf(name, true), '').startsWith(`$ check: ${said}`), said);
  });
}
test('a package that is nested deep is read', { skip }, async () => {
  const [own] = await bothSay(['check'], path.join(PACKAGES, 'deep'));
  holds(own.startsWith('status 0\n'), own);
});

// ---- what `fast-check build` is asked

/** What the program prints for folders behind some words, and what it prints for them behind `--input`. */
function linesAndInputs(/** @type {string[]} */ folders) {
  const { stdout } = childProcess.spawnSync(PROGRAM || '', [...folders, '--input', ...folders], { encoding: 'utf8', maxBuffer: 1 << 30 });
  const lines = stdout.trimEnd().split('\n').map((it) => JSON.parse(it));
  same(lines.length, 2 * folders.length, 'how many lines come');
  return folders.map((_, at) => ({ line: lines[at], input: lines[folders.length + at].input }));
}

/** What `fast-check build` answers to an input in a file, by the words of its sources. */
function builtOf(/** @type {import('../src/program/types').Request} */ input, /** @type {string} */ file) {
  fs.writeFileSync(file, JSON.stringify(input));
  const { stdout, stderr } = childProcess.spawnSync(process.env.FAST_CHECK || '', ['build', file], { encoding: 'utf8', maxBuffer: 1 << 28 });
  const modules = input.modules.map(([specifier, { Esm: it }]) => ({ specifier, parts: it && { marks: { isMarked: isMarked(JSON.stringify(it.source)) } } }));
  return stdout ? restored(JSON.parse(stdout), input, /** @type {import('../src/package/types').Module[]} */ (modules)) : stderr;
}

/** The answers of a line of the program, with those of the entry points that are answered as another one, in the order of the specifiers of a package. */
function writtenOut(/** @type {{ answers: import('../src/program/types').Answer[], same: [string, string[]][] }} */ { answers, same }) {
  const others = new Map(same);
  return answers.flatMap(([specifier, answer]) => [specifier, ...others.get(specifier) || []].map((it) => [it, answer]));
}

test('build answers to the input what the program answers', { skip }, () => withFolder((folder) => {
  const names = STORED.filter((it) => it !== 'deep');
  for (const [at, { line, input }] of linesAndInputs(names.map((it) => path.join(PACKAGES, it))).entries()) {
    assert.deepStrictEqual(builtOf(input, path.join(folder, 'input.json')), writtenOut(line), names[at]);
  }
}));

for (const name of ['missing-import', 'unresolved-import', 'deep']) {
  test(`the input of ${name} is the compiler's, since it has words for it`, { skip }, async () => same(...await bothSay(['input'], path.join(PACKAGES, name))));
}

// ---- without a compiler

/** Runs the launcher where no compiler can be found. */
function runWithout(/** @type {string[]} */ words, /** @type {string} */ cwd) {
  const env = { ...process.env, FAST_CHECK_SOURCE: PROGRAM || '', TYPESCRIPT: '/nowhere' };
  const { status, stdout, stderr } = childProcess.spawnSync(LAUNCHER, [...words, '--reader', 'source', '--no-cache', '.'], { cwd, encoding: 'utf8', env });
  return { status, out: untimed(stdout), err: stderr };
}

for (const name of ['classes', 're-exports', 'workspace']) {
  test(`the input of ${name} needs no compiler`, { skip }, () => {
    const { status, out, err } = runWithout(['input'], path.join(PACKAGES, name));
    same(`${status} ${err}`, '0 ');
    same(out, `${JSON.stringify(linesAndInputs([path.join(PACKAGES, name)])[0].input)}\n`);
  });
}
for (const name of ['classes', 'expando-keywords', 're-exports', 'workspace']) {
  test(`the skeletons of ${name} need no compiler`, { skip }, async () => {
    const { status, out, err } = runWithout(['skeleton'], path.join(PACKAGES, name));
    const other = await run(['skeleton', '--no-cache', '--reader', 'typescript', '.'], { cwd: path.join(PACKAGES, name) });
    same(`${status} ${err}`, '0 ');
    same(out, other.out);
  });
}
for (const name of ['classes', 're-exports', 'workspace', 'single-returns', 'widened-literals', 'missing-type']) {
  test(`${name} needs no compiler`, { skip }, async () => {
    const { status, out, err } = runWithout(['check'], path.join(PACKAGES, name));
    const other = await run(['check', '--no-cache', '--reader', 'typescript', '.'], { cwd: path.join(PACKAGES, name) });
    same(err, '', 'standard error');
    same(`${status} ${out}`, `${other.status} ${other.out}`);
  });
}
test('hints are those of the program where there is no compiler', { skip }, () => {
  const { status, out, err } = runWithout(['check'], path.join(PACKAGES, 'async-hints'));
  same(`${status} ${err}`, '1 ');
  holds(out.includes("= hint: add an explicit return type of 'Promise<void>'") || out.includes("= hint: add an explicit return type of 'void'"), out);
});
test('a configuration with comments needs no compiler', { skip }, () => withFolder((folder) => {
  const config = '// a package\n{ "name": "@test/odd", "version": "1.0.0", /* where it begins */ "exports": { ".": "./mod.ts", }, }';
  write(folder, { 'deno.json': null, 'deno.jsonc': config, 'mod.ts': 'export const one: number = 1;\n' });
  fs.rmSync(path.join(folder, 'deno.json'), { force: true });
  const { status, out, err } = runWithout(['check'], folder);
  same(`${status} ${err}`, '0 ');
  holds(out.includes('1 file, 1 public module, 0 messages'), out);
}));
test('what is wrong is said by the program where there is no compiler', { skip }, () => withFolder((folder) => {
  write(folder, { 'mod.ts': 'export const = 1;\n' });
  const { status, err } = runWithout(['check'], folder);
  same(status, 2, 'the status');
  holds(err.includes('mod.ts:1:14') && err.includes('this cannot stand here'), err);
}));

// ---- places

/** The places of the warnings of a module of a text. */
async function placesIn(/** @type {string} */ text) {
  let places = '';
  await withFolder((folder) => {
    write(folder, { 'mod.ts': text });
    const { stdout } = childProcess.spawnSync(PROGRAM || '', [folder], { encoding: 'utf8', maxBuffer: 1 << 28 });
    places = JSON.parse(stdout).warnings.map((/** @type {{ line: number, column: number }} */ it) => `${it.line}:${it.column}`).join(' ');
  });
  return places;
}

test('lacking modules are told by lines and UTF-16 columns', { skip }, async () => {
  same(await placesIn('/* \u00e9\u20ac\u{1f600} */ import "./a"; import "./b";\r\nimport "./c";\rimport "./d";\n\n  export * as e from "./e";\n'), '1:19 1:33 2:8 3:8');
});
test('thousands of lacking modules take no longer than their text', { skip }, async () => {
  const begun = Date.now();
  const places = await placesIn('import "./a";\n'.repeat(20000));
  holds(places.endsWith(' 19999:8 20000:8'), places.slice(-40));
  holds(Date.now() - begun < 5000, `${Date.now() - begun} ms`);
});

test('thousands of lacking entry points take no longer than their text, and each is told', { skip }, () => withFolder((folder) => {
  const names = Array.from({ length: 4500 }, (_, at) => `x${at}.ts`);
  write(folder, { 'deno.json': JSON.stringify({ name: '@test/lacking', version: '1.0.0', exports: Object.fromEntries(names.map((it) => [`./${it}`, `./${it}`])) }) });
  const begun = Date.now();
  const { stdout } = childProcess.spawnSync(PROGRAM || '', [folder], { encoding: 'utf8', maxBuffer: 1 << 26 });
  holds(Date.now() - begun < 5000, `${Date.now() - begun} ms`);
  const { errors } = JSON.parse(stdout);
  same(new Set(errors.map((/** @type {{ message: string }} */ { message }) => message)).size, names.length, 'the errors');
  same([errors[0].path, errors[0].line].join(), 'deno.json,1', 'the place of the first');
}));

// ---- folders that are read together

test('serve answers lines that come together as it answers each', { skip }, () => withFolder((folder) => {
  write(folder, { 'odd.ts': 'export const = 1;\n', 'deno.json': '{ "name": "@test/odd", "version": "1.0.0", "exports": "./odd.ts" }' });
  const dirs = [...['classes', 'workspace', 'missing-type', 'classes', 'nowhere', 'classes/mod.ts', 're-exports'].map((it) => path.join(PACKAGES, it)), folder];
  const lines = [...dirs.map((dir) => JSON.stringify({ dir, want: 'skeletons' })), '{"dir": 1}', JSON.stringify({ dir: dirs[0] })];
  const served = (/** @type {string} */ input) => childProcess.spawnSync(LAUNCHER, ['serve'], { input, encoding: 'utf8', env: { ...process.env, FAST_CHECK_SOURCE: PROGRAM || '' } }).stdout;
  const together = served(lines.map((it) => `${it}\n`).join(''));
  same(together.split('\n').length, lines.length + 1, 'how many lines come');
  same(together, lines.map((it) => served(`${it}\n`)).join(''));
}));
test('serve answers each folder where the program fails on all together', () => withFolder((folder) => {
  const program = path.join(folder, 'program');
  fs.writeFileSync(program, `#!/bin/sh\n[ $# = 1 ] || exit 3\ncd ${CRATE} && sed -n "$(grep -m 1 -nx "\${1##*/}" args | cut -d : -f 1)p" stdout\n`, { mode: 0o755 });
  const input = ['other', 'package'].map((it) => `${JSON.stringify({ dir: path.join(CRATE, 'data', it) })}\n`).join('');
  const { stdout } = childProcess.spawnSync(LAUNCHER, ['serve'], { input, encoding: 'utf8', env: { ...process.env, FAST_CHECK_SOURCE: program } });
  same(stdout.trim().split('\n').map((it) => JSON.parse(it).status).join(' '), '1 0', 'the statuses');
}));

// ---- without Node

/** Runs the program in a root that has its C library and a package, and nothing else. */
function runInRoot(/** @type {string} */ root, /** @type {string} */ program) {
  const libraries = childProcess.execFileSync('ldd', [program], { encoding: 'utf8' }).match(/\/\S+/g) || [];
  for (const file of libraries) {
    fs.mkdirSync(path.join(root, path.dirname(file)), { recursive: true });
    fs.copyFileSync(file, path.join(root, file));
  }
  fs.copyFileSync(program, path.join(root, 'fast-check-source'));
  fs.cpSync(path.join(TOP, 'examples/package'), path.join(root, 'package'), { recursive: true });
  return childProcess.spawnSync('unshare', ['--map-root-user', 'chroot', root, '/fast-check-source', '/package'], { encoding: 'utf8' });
}

const mayUnshare = childProcess.spawnSync('unshare', ['--map-root-user', 'true']).status === 0;
test('the example of the README is answered without Node and without TypeScript', { skip: skip || (!mayUnshare && 'no root can be made') }, () => withFolder((root) => {
  const { status, stdout, stderr } = runInRoot(root, PROGRAM || '');
  same(`${status} ${stderr}`, '1 ');
  same(stdout, fs.readFileSync(path.join(__dirname, 'expected/source/example.json'), 'utf8'));
}));
