'use strict';
// Folders as they come: bytes that are no text, odd names, links, configurations that say something else, entry points that lead elsewhere.
const { test } = require('node:test');
const { sourceProgramFile } = require('../src/program/program.js');
const { Converter } = require('../src/tree/from-typescript/converter.js');
const { run, same, holds, withFolder, write, cases, CONFIG } = require('./support/helpers.js');

/** @typedef {import('./support/helpers.js').Content} Content */

const UNTYPED = 'export function f() { return Math.max(1); }\n';

const BUNDLED = '{ "exports": { ".": { "types": "./dist/index.d.ts" }, "./cli": { "import": { "types": "./dist/cli/index.d.mts" } } } }';
const NO_EMIT = '{ "compilerOptions": { "noEmit": true, "module": "esnext" } }';
/** @returns {Record<string, Content>} */
const WORKSPACE = (/** @type {string} */ list) => ({ 'deno.json': null, 'package.json': `{ "name": "root", "private": true, "workspaces": [${list}] }` });
const MEMBER = '{ "name": "member", "exports": "./mod.ts" }';

/** Each has a name, the files of a folder, the status of `check`, and what has to be reported, or may not be reported where a `!` stands before it. */
/** @type {[name: string, files: Record<string, Content>, status: number, told: string[]][]} */
const FOLDERS = [
  ['a mark of byte order', { 'deno.json': `\ufeff${CONFIG}`, 'mod.ts': `\ufeff${UNTYPED}` }, 1, ['mod.ts:1:17', '|                 ^ this']],
  ['lines that end with both', { 'mod.ts': `// one\r\n\t${UNTYPED}` }, 1, ['mod.ts:2:18', '| \t                ^ this']],
  ['lines that end with a return alone', { 'mod.ts': `export const a: number = 1;\r${UNTYPED}` }, 1, ['mod.ts:2:17', '| export function f']],
  ['UTF-16', { 'mod.ts': Buffer.from(`\ufeff${UNTYPED}`, 'utf16le') }, 1, ['mod.ts:1:17']],
  ['bytes that are no text', { 'mod.ts': Buffer.from('export const a = 1;\nexport const b = "\xe9";\n', 'latin1') }, 2, ['the file is no UTF-8', 'mod.ts:2:19']],
  ['a configuration that is no text', { 'deno.json': Buffer.from('{ "name": "\xff" }', 'latin1'), 'mod.ts': '' }, 2, ['bad-configuration', 'deno.json:1:12']],
  ['characters that move a terminal', { 'mod.ts': UNTYPED.replace('()', '(a = "\x1b[2J\x07\u202e")') }, 1, ['\u241b[2J\u2407\ufffd', '!\x1b', '!\u202e']],
  ['wide characters before the place', { 'mod.ts': 'export const a: string = "日本😀", b = f(); function f() {}\n' }, 1, ['mod.ts:1:33', `|${' '.repeat(36)}^ this`]],
  ['names that a URL writes otherwise', { 'a b#c%20?/é.ts': 'export const q: 1 = 1;', 'mod.ts': 'export * from "./a b#c%20?/é.ts";' }, 0, ['2 files, 2 public']],
  ['an entry point with such a name', { 'deno.json': CONFIG.replace('mod.ts', 'a b#%2e?.ts'), 'a b#%2e?.ts': UNTYPED }, 1, ['a b#%2e?.ts:1:17']],
  ['a line break in a name', { 'deno.json': CONFIG.replace('mod.ts', 'a\\nb.ts'), 'a\nb.ts': UNTYPED }, 1, ['a\u240ab.ts:1:17', '!a\nb']],
  ['names that objects have', { '__proto__.ts': 'export const toString: 1 = 1;', 'mod.ts': 'export * from "./__proto__.ts"; export class constructor {} export const __proto__: 1 = 1;' }, 0, ['2 public']],
  ['a link in a circle', { 'mod.ts': { linkTo: 'mod.ts' } }, 2, ['the entry point ./mod.ts is not there']],
  ['a folder that has itself', { 'mod.ts': 'export * from "./self/self/mod.ts"; export const a: 1 = 1;', self: { linkTo: '.' } }, 0, ['1 file, 1 public']],
  ['a link that leads out', { 'mod.ts': 'export * from "./a.ts";', 'a.ts': { linkTo: '/etc/hostname' } }, 2, ['error[refused-file]: this link leads out of the folder', '--> a.ts', '!localhost']],
  ['an entry point behind a link that leads out', { 'mod.ts': { linkTo: '/etc/passwd' } }, 2, ['this link leads out of the folder', '--> mod.ts', '!root']],
  ['a folder behind a link that leads out', { 'mod.ts': 'export * from "./etc/passwd";', etc: { linkTo: '/etc' } }, 2, ['this link leads out of the folder', '!root']],
  ['a configuration behind a link that leads out', { 'deno.json': { linkTo: '/etc/passwd' }, 'mod.ts': '' }, 2, ['this link leads out of the folder', '--> deno.json', '!root']],
  ['aliases behind a link that leads out', { 'mod.ts': 'import "@/a"; export {};', 'tsconfig.json': { linkTo: '/etc/passwd' } }, 0, ["nothing says what '@' is", '!root']],
  ['a pipe that nobody writes to', { 'mod.ts': 'export * from "./a.ts";', 'a.ts': { pipe: true } }, 2, ['error[refused-file]: this is no regular file', '--> a.ts']],
  ['an entry point that is a pipe', { 'mod.ts': { pipe: true } }, 2, ['this is no regular file', '--> mod.ts']],
  ['a configuration that is a pipe', { 'deno.json': { pipe: true }, 'mod.ts': '' }, 2, ['this is no regular file', '--> deno.json']],
  ['JavaScript that is a pipe', { 'mod.ts': 'export * from "./a.js";', 'a.js': { pipe: true } }, 2, ['this is no regular file', '--> a.js']],
  ['a device', { 'mod.ts': { linkTo: '/dev/zero' } }, 2, ['this is no regular file', '--> mod.ts']],
  ['two names of a file', { 'mod.ts': 'export * from "./a.ts"; export * from "./b.ts";', 'a.ts': 'export const a: 1 = 1;', 'b.ts': { linkTo: 'a.ts' } }, 0, ['2 files, 2 public']],
  ['a folder in the place of a file', { 'mod.ts/a.ts': '' }, 2, ['the entry point ./mod.ts is not there']],
  ['nothing at all', { 'deno.json': null }, 2, ['no entry point']],
  ['an empty file', { 'mod.ts': '' }, 0, ['1 public module']],
  ['an entry point elsewhere', { 'deno.json': CONFIG.replace('./mod.ts', '../mod.ts') }, 2, ['the entry point ../mod.ts lies outside of the package']],
  ['an entry point of the machine', { 'deno.json': CONFIG.replace('./mod.ts', '/etc/passwd') }, 2, ['the entry point /etc/passwd lies outside']],
  ['an entry point of JavaScript that is not there', { 'deno.json': CONFIG.replace('mod.ts', 'mod.js') }, 2, ['the entry point ./mod.js is not there']],
  ['a module elsewhere', { 'mod.ts': 'export * from "../../../../../etc/passwd";' }, 1, ["the module '../../../../../etc/passwd' lies outside of the folder"]],
  ['a configuration that breaks off', { 'deno.json': '{ "name": "a",\n "exports": }' }, 2, ['bad-configuration', 'deno.json:2:13', '|             ^']],
  ['a configuration that is a list', { 'deno.json': '[]', 'mod.ts': '' }, 2, ['this is no object', '!tsconfig']],
  ['a name that is a number', { 'deno.json': '{\n  "name": 1 }', 'mod.ts': '' }, 2, ['`name` has to be a text', 'deno.json:2:3', '!no-entry-point']],
  ['exports that are a number', { 'deno.json': '{ "exports": 5 }', 'mod.ts': '' }, 2, ['`exports` has to be a path or a map']],
  ['a workspace of numbers', { 'deno.json': '{ "workspace": [1] }', 'mod.ts': '' }, 2, ['`workspace` has to be a list of paths']],
  ['a member that is not there', { 'deno.json': '{ "workspace": ["./a"] }' }, 2, ['this member of the workspace is not there', 'no-entry-point']],
  ['a member elsewhere', { 'deno.json': '{ "workspace": ["../a"] }' }, 2, ['this member of the workspace lies outside of the folder']],
  ['a member that cannot be read', {
    'deno.json': '{ "workspace": ["./a", "./b", "./c"] }', 'a/deno.json': CONFIG, 'a/mod.ts': 'export const a = ;', 'b/deno.json': CONFIG.replace('odd', 'b'),
    'b/mod.ts': `import { a } from "@test/odd"; export const c: typeof a = a; ${UNTYPED}`, 'c/deno.json': '{ "name": 1 }', 'c/mod.ts': '',
  }, 2, ['a/mod.ts:1:18', 'error[bad-configuration]', '--> c/deno.json', 'error[missing-explicit-return-type]', '--> b/mod.ts', '!no-entry-point', '3 messages']],
  ['a member that is nested too deep', {
    'deno.json': '{ "workspace": ["./a", "./b"] }', 'a/deno.json': CONFIG, 'a/mod.ts': `export const a = ${'['.repeat(70)}${']'.repeat(70)};`, 'b/deno.json': CONFIG.replace('odd', 'b'),
    'b/mod.ts': UNTYPED,
  }, 2, ['error[nested-too-deep]', '--> a/mod.ts', 'error[missing-explicit-return-type]', '--> b/mod.ts']],
  ['an entry point of several that is not there', { 'deno.json': '{ "name": "a", "exports": {\n ".": "./mod.ts",\n "./b": "./b.ts" } }', 'mod.ts': UNTYPED }, 1, ['deno.json:3:9', '^^^^^^^^', 'the entry point ./b.ts is not there', 'missing-explicit-return-type']],
  ['types that are not there', { 'deno.json': null, 'package.json': '{ "name": "a",\n "types": "./b.d.ts" }' }, 2, ['the entry point ./b.d.ts is not there', 'package.json:2:11']],
  ['deeper than a parser goes', { 'mod.ts': `export const a = ${'('.repeat(20000)}1${')'.repeat(20000)};` }, 2, ['nested-too-deep']],
  ['members by a star', { 'deno.json': '{ "workspace": ["./*"] }', 'a/deno.json': CONFIG, 'a/mod.ts': 'export {};', 'docs/page.txt': '' }, 0, ['1 file, 1 public']],
  ['conditions', {
    'deno.json': null,
    'package.json': '{ "name": "a", "exports": { ".": { "require": { "types": "./r.d.cts" }, "import": { "types": "./i.d.mts", "default": "./i.mjs" } }, "./none/*": null } }',
    'i.d.mts': 'export declare const a: 1;', 'i.mjs': '', 'r.d.cts': 'export declare const b = f();',
  }, 0, ['1 file, 1 public']],
  ['a main module alone', { 'deno.json': null, 'package.json': '{ "main": "./lib/a.js" }', 'lib/a.js': '', 'lib/a.d.ts': 'export declare const a: 1;' }, 0, ['1 file, 1 public']],
  ['types that JavaScript names in a block', { 'mod.ts': 'export * from "./a.js";', 'a.js': '/* @ts-self-types="./b.d.ts" */\n', 'b.d.ts': 'export declare const a: 1;' }, 0, ['2 files, 2 public']],
  ['types of an import', { 'mod.ts': '// @ts-types="./b.d.ts"\nexport * from "./a.js";', 'a.js': '', 'b.d.ts': 'export declare const a: 1;' }, 0, ['2 files, 2 public']],
  // Entry points that a build writes.
  ['a compiler that writes from the common folder', {
    'deno.json': null, 'package.json': '{ "types": "./out/index.d.ts" }', 'tsconfig.json': '{ "compilerOptions": { "outDir": "out" }, "include": ["lib"] }', 'lib/index.ts': UNTYPED, 'lib/a/b.ts': '',
  }, 1, ['lib/index.ts is taken for the entry point ./out/index.d.ts', 'lib/index.ts:1:17']],
  ['a folder of declarations', {
    'deno.json': null, 'package.json': '{ "types": "./types/index.d.ts" }', 'src/index.ts': UNTYPED,
    'tsconfig.json': '{ "compilerOptions": { "rootDir": "src", "outDir": "dist", "declarationDir": "types" } }',
  }, 1, ['src/index.ts is taken for the entry point ./types/index.d.ts']],
  ['a tsconfig.json beside the sources', {
    'deno.json': null, 'package.json': '{ "types": "./made/index.d.ts" }', 'src/tsconfig.json': '{ "compilerOptions": { "outDir": "../made" } }', 'src/index.ts': UNTYPED,
  }, 1, ['src/index.ts is taken for the entry point ./made/index.d.ts']],
  ['a tsconfig.json for the build', {
    'deno.json': null, 'package.json': '{ "types": "./made/index.d.ts" }', 'tsconfig.json': '{ "compilerOptions": { "noEmit": true } }', 'code/index.ts': UNTYPED,
    'tsconfig.build.json': '{ "extends": "./tsconfig.json", "compilerOptions": { "noEmit": false, "rootDir": "code", "outDir": "made" } }',
  }, 1, ['code/index.ts is taken for the entry point ./made/index.d.ts']],
  ['a tsconfig.json that extends two', {
    'deno.json': null, 'package.json': '{ "types": "./made/index.d.ts" }', 'tsconfig.json': '{ "extends": ["./a.json", "./b.json"] }', 'code/index.ts': UNTYPED,
    'a.json': '{ "compilerOptions": { "rootDir": "code", "outDir": "other" } }', 'b.json': '{ "compilerOptions": { "outDir": "made" } }',
  }, 1, ['code/index.ts is taken for the entry point ./made/index.d.ts']],
  ['what a bundler has not built yet', { 'deno.json': null, 'package.json': BUNDLED, 'tsconfig.json': NO_EMIT, 'src/index.ts': UNTYPED, 'src/cli/index.ts': 'export {};' }, 1,
    ['src/index.ts is taken for the entry point ./dist/index.d.ts', 'src/cli/index.ts is taken for the entry point ./dist/cli/index.d.mts', 'src/index.ts:1:17']],
  ['what a bundler has built', {
    'deno.json': null, 'package.json': BUNDLED, 'tsconfig.json': NO_EMIT, 'src/index.ts': UNTYPED, 'src/cli/index.ts': 'export {};', 'dist/index.d.ts': 'export {};', 'dist/cli/index.d.mts': 'export {};',
  }, 1, ['src/index.ts is taken for the entry point ./dist/index.d.ts', 'src/index.ts:1:17']],
  ['one built file of another name', { 'deno.json': null, 'package.json': '{ "types": "./dist/whole.d.ts" }', 'dist/whole.d.ts': 'export {};', 'src/index.ts': UNTYPED }, 1,
    ['src/index.ts is taken for the entry point ./dist/whole.d.ts']],
  ['built files without their sources', { 'deno.json': null, 'package.json': '{ "types": "./dist/whole.d.ts" }', 'dist/whole.d.ts': 'export {};', 'src/other.ts': UNTYPED }, 0,
    ['warning[built-entry-point]: the entry point ./dist/whole.d.ts is a built file, and nothing of src/ is read', '--exports', '1 file, 1 public']],
  ['built files of which one has a source', {
    'deno.json': null, 'package.json': '{ "exports": { ".": "./dist/index.d.ts", "./b": "./dist/b.d.ts" } }', 'dist/index.d.ts': 'export {};', 'dist/b.d.ts': 'export {};', 'src/index.ts': UNTYPED,
  }, 0, ['the entry point ./dist/index.d.ts is a built file', 'the entry point ./dist/b.d.ts is a built file', '2 files, 2 public']],
  ['declarations that are written by hand', { 'deno.json': null, 'package.json': '{ "types": "./types/index.d.ts" }', 'types/index.d.ts': 'export {};', 'lib/index.js': '' }, 0, ['1 file, 1 public', '!built-entry-point']],
  ['nothing that is built', { 'deno.json': null, 'package.json': '{ "types": "./dist/index.d.ts" }' }, 2, ['the entry point ./dist/index.d.ts is not there', '--exports']],
  // Workspaces.
  ['members one level deeper', { ...WORKSPACE('"packages/*/lib"'), 'packages/a/lib/package.json': MEMBER, 'packages/a/lib/mod.ts': UNTYPED }, 1, ['packages/a/lib/mod.ts:1:17']],
  ['members by braces', { ...WORKSPACE('"packages/{a,b}/lib"'), 'packages/b/lib/package.json': MEMBER, 'packages/b/lib/mod.ts': UNTYPED }, 1, ['packages/b/lib/mod.ts:1:17']],
  ['members at any depth within', { ...WORKSPACE('"packages/**/lib"'), 'packages/a/b/lib/package.json': MEMBER, 'packages/a/b/lib/mod.ts': UNTYPED }, 1, ['packages/a/b/lib/mod.ts:1:17']],
  ['members at any depth', { ...WORKSPACE('"packages/**"'), 'packages/a/b/package.json': MEMBER, 'packages/a/b/mod.ts': UNTYPED, 'packages/a/node_modules/c/package.json': MEMBER }, 1, ['packages/a/b/mod.ts:1:17', '1 file']],
  ['members that begin alike', { ...WORKSPACE('"packages/pkg-*"'), 'packages/pkg-a/package.json': MEMBER, 'packages/pkg-a/mod.ts': UNTYPED, 'packages/other/package.json': '{}' }, 1, ['packages/pkg-a/mod.ts:1:17', '!other']],
  ['members that are left out', {
    ...WORKSPACE('"packages/a/*", "!packages/a/l*"'), 'packages/a/lib/package.json': MEMBER, 'packages/a/lib/mod.ts': UNTYPED, 'packages/a/b/package.json': MEMBER, 'packages/a/b/mod.ts': 'export {};',
  }, 0, ['1 file, 1 public', '!lib']],
  ['members that pnpm lists', { 'deno.json': null, 'package.json': '{ "private": true }', 'pnpm-workspace.yaml': 'packages:\n  - "packages/*"\n', 'packages/a/package.json': MEMBER, 'packages/a/mod.ts': UNTYPED }, 1, ['packages/a/mod.ts:1:17']],
  ['members that pnpm lists in a line', { 'deno.json': null, 'package.json': '{}', 'pnpm-workspace.yaml': "packages: ['packages/*', other] # all\n", 'packages/a/package.json': MEMBER, 'packages/a/mod.ts': UNTYPED }, 1, ['packages/a/mod.ts:1:17']],
  ['a workspace of which no member has a module', { ...WORKSPACE('"packages/*"'), 'packages/a/package.json': '{ "name": "a" }' }, 2, ['no entry point: neither', 'packages/a', 'this member of the workspace is passed over']],
  ['a workspace without members', WORKSPACE('"packages/*/lib"'), 2, ['no entry point', 'fits no folder']],
  // What the compiler resolves by its options.
  ['several roots', {
    'tsconfig.json': '{ "compilerOptions": { "rootDirs": ["./src", "./gen"] } }', 'deno.json': CONFIG.replace('mod.ts', 'src/mod.ts'), 'src/mod.ts': 'export * from "./t";', 'gen/t.ts': 'export const a: 1 = 1;',
  }, 0, ['2 files, 2 public', '!missing-module']],
  ['the folder itself as a module', { 'mod.ts': 'export * from "./a/b";', 'a/b.ts': 'export * from "../";', 'index.ts': 'export const a: 1 = 1;' }, 0, ['3 files, 3 public', '!missing-module']],
  ['a folder whose package.json names its module', { 'mod.ts': 'export * from "./a";', 'a/package.json': '{ "types": "./b.ts" }', 'a/b.ts': 'export const a: 1 = 1;' }, 0, ['2 files, 2 public']],
  ['a style beside the modules', { 'mod.ts': 'import "./a.css"; export {};', 'a.css': '' }, 0, ['1 file, 1 public', '!missing-module']],
  ['endings before the ending', { 'tsconfig.json': '{ "compilerOptions": { "moduleSuffixes": [".ios", ""] } }', 'mod.ts': 'export * from "./t";', 't.ios.ts': 'export const a: 1 = 1;', 't.ts': UNTYPED }, 0, ['2 files, 2 public', '!missing']],
  ['a parameter with `?` and a default', { 'mod.ts': 'export function f(a?: number = 1): void {}\nexport function g() { return Math.max(1); }\n' }, 1, ['mod.ts:1:19', 'cannot have question mark and initializer', 'mod.ts:2:17']],
  ['such a parameter in hidden code', { 'mod.ts': 'export function f(): void { function h(a?: number = 1) {} }\n' }, 0, ['1 public']],
  ['a character that no line has', { 'mod.ts': 'export const a: 1 = 1;\x00\n' }, 2, ['Invalid character', '\u2400']],
];

cases(FOLDERS.map(([name, files, wanted, told]) => [`a folder with ${name}`, () => withFolder(async (folder) => {
  write(folder, files);
  const { status, out, err } = await run(['check', '--reader', 'typescript', '.'], { cwd: folder });
  const text = out + err;
  for (const each of told) holds(each[0] === '!' ? !text.includes(each.slice(1)) : text.includes(each), `${JSON.stringify(each)} and this was told:\n${text}`);
  same(status, wanted, `the status of\n${text}\nthat`);
})]));

// The program does not hand the tree on as JSON, and so reads deeper.
const PROGRAM = sourceProgramFile(process.env);
for (const [name, files] of FOLDERS.filter(([it]) => !it.includes('deep'))) {
  test(`both readers say the same of a folder with ${name}`, { skip: !PROGRAM && 'fast-check-source is not built' }, () => withFolder(async (folder) => {
    write(folder, files);
    const said = async (/** @type {string} */ reader) => (
      JSON.stringify(await run(['check', '--no-cache', '--reader', reader, '.'], { cwd: folder, environment: { FAST_CHECK_SOURCE: PROGRAM || '' } })));
    same(await said('source'), await said('typescript'));
  }));
}

/** Calls back while the tree of the first package of a workspace cannot be made, by an exception that is no refusal. */
async function withFault(/** @type {string} */ folder, /** @type {() => Promise<void>} */ call) {
  const { start } = Converter.prototype;
  write(folder, {
    'deno.json': '{ "workspace": ["./a", "./b"] }', 'a/deno.json': CONFIG, 'a/mod.ts': 'export const fault = 1;', 'b/deno.json': CONFIG.replace('odd', 'b'), 'b/mod.ts': UNTYPED,
  });
  Converter.prototype.start = function wrong(/** @type {ts.SourceFile} */ node) {
    if (this.text.includes('fault')) throw new TypeError('no such form');
    return start.call(this, node);
  };
  try {
    await call();
  } finally {
    Converter.prototype.start = start;
  }
}

test('a fault of the tool takes no other messages away', () => withFolder((folder) => withFault(folder, async () => {
  const { status, out, err } = await run(['check', '--reader', 'typescript', '.'], { cwd: folder });
  same(status, 70, 'the status');
  const text = out + err;
  for (const each of ['error[internal-error]: internal error in folders.test.js:', '(module a/mod.ts): no such form, please report it', '--> b/mod.ts', '1 file, 2 messages']) holds(text.includes(each), text);
  const json = await run(['check', '--json', '--reader', 'typescript', '.'], { cwd: folder });
  same(json.status, 70, 'the status');
  const codes = json.out.trim().split('\n').map((line) => JSON.parse(line).code).sort();
  same(codes.join(' '), 'internal-error missing-explicit-return-type');
})));
test('a fault of the tool in a package alone', () => withFolder((folder) => withFault(folder, async () => {
  const { status, out } = await run(['check', '--json', '--reader', 'typescript', 'a'], { cwd: folder });
  same(status, 70, 'the status');
  same(JSON.parse(out).code, 'internal-error');
})));
