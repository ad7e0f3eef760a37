'use strict';
// What `fix` makes of the bytes, lines and comments of sources, and of types that the compiler has not.
const childProcess = require('child_process');
const fs = require('fs');
const path = require('path');
const { test } = require('node:test');
const { run, same, holds, withFolder, write, readOr, cases, LAUNCHER, PACKAGES, DOCS } = require('./support/helpers.js');

/** @typedef {import('./support/helpers.js').Case} Case */

const MADE = 'export interface Made { x: number }\nexport function make(): Made { return { x: 1 }; }\n';
const CALL = 'export function f() { return import("./made.ts").then((it) => it.make()); }\n';
const WRITTEN = CALL.replace('f()', 'f(): Promise<Made>');
const IMPORT = 'import type { Made } from "./made.ts";\n';
const PLAIN = 'export function f() { return Math.max(1); }\n';
const TYPED = PLAIN.replace('f()', 'f(): number');
const crlf = (/** @type {string} */ text) => text.replaceAll('\n', '\r\n');
const big = (/** @type {string} */ text) => Buffer.from(`\ufeff${text}`, 'utf16le').swap16();
const little = (/** @type {string} */ text) => Buffer.from(`\ufeff${text}`, 'utf16le');

/**
 * Each has a name, the text or the bytes of `mod.ts`, what they are behind `fix`, and what is reported.
 *
 * @type {[name: string, text: string | Buffer, wanted: string | Buffer | null, told?: string | null, first?: string][]}
 */
const SOURCES = [
  ['a mark of byte order', `\ufeff${PLAIN}`, `\ufeff${TYPED}`],
  ['UTF-16, the lower byte first', little(PLAIN), little(TYPED)],
  ['UTF-16, the higher byte first', big(PLAIN), big(TYPED)],
  ['lines that end with both', crlf(`"use strict";\n${CALL}export default Math.max(1);\n`),
    crlf(`"use strict";\n${IMPORT}${WRITTEN}const _default: number = Math.max(1);\nexport default _default;\n`)],
  ['lines that end with a return alone', PLAIN.replace('\n', '\r') + CALL.replace('f()', 'g()'), TYPED.replace('\n', '\r') + WRITTEN.replace('f()', 'g()'), null, `${IMPORT.trim()}\r`],
  ['a directive', `"use client"; // first\n${CALL}`, `"use client";\n${IMPORT.trim()} // first\n${WRITTEN}`],
  ['a line for a shell', `#!/usr/bin/env node\n${CALL}`, `#!/usr/bin/env node\n${IMPORT}${WRITTEN}`],
  ['comments on what follows', `// A licence\n\n// @ts-ignore\n// Why\n${CALL}`, `// A licence\n\n${IMPORT}// @ts-ignore\n// Why\n${WRITTEN}`],
  ['a module by the JavaScript that it becomes', CALL.replace('.ts', '.js'), IMPORT.replace('.ts', '.js') + WRITTEN.replace('.ts', '.js')],
  ['a module without an ending', CALL.replace('.ts', ''), IMPORT.replace('.ts', '') + WRITTEN.replace('.ts', '')],
  ['a comment on the whole file', `// deno-lint-ignore-file\n${CALL}`, `// deno-lint-ignore-file\n${IMPORT}${WRITTEN}`],
  ['a default value, where the name of it is taken', 'const _default: 1 = 1;\nexport const _default_1 = 2;\nexport default Math.max(1);\n',
    'const _default: 1 = 1;\nexport const _default_1 = 2;\nconst _default_2: number = Math.max(1);\nexport default _default_2;\n'],
  ['a text whose last line has no end', `${PLAIN}export default Math.max(1)`, `${TYPED}const _default: number = Math.max(1);\nexport default _default;`],
  ['a circle', 'function b() { return a(); }\nexport function a() { return b(); }\nconst o = { k: b() };\nexport class C { c = [o.k]; }\n', null, 'not fixed: its type comes of b, which is in a circle'],
  ['a part of a circle', 'export function f() { return { a: 1, f }; }\n', null, 'not fixed: its type has itself in it'],
  ['a module that is not found', 'export const made = import("./nowhere.ts");\n', null, 'not fixed: its type comes of the module ./nowhere.ts, which is not found'],
  ['`any` that is written', 'export function f(a: any) { return a.map(f); }\n', 'export function f(a: any): any { return a.map(f); }\n'],
];

/** Writes other texts to two files in a process that may write no file of more than 8 KB, as on a full disk: no file may change. */
function fullDisk() {
  return withFolder(async (folder) => {
    const files = ['a.ts', 'b.ts'].map((name) => path.join(folder, name));
    const long = '// a line\n'.repeat(2000);
    write(folder, { 'a.ts': PLAIN, 'b.ts': long });
    const call = `require(${JSON.stringify(require.resolve('../src/package/files.js'))}).rewriteTexts(${JSON.stringify([[files[0], TYPED], [files[1], long + TYPED]])})`;
    const { status, stderr } = childProcess.spawnSync('bash', ['-c', 'ulimit -f 8; exec "$0" -e "$1"', process.execPath, call], { encoding: 'utf8' });
    holds(status !== 0 && stderr.includes(`no file is changed, since ${files[1]} cannot be written: EFBIG`), stderr);
    same(fs.readdirSync(folder).sort().join(), 'a.ts,b.ts,deno.json', 'the files');
    same(files.map((it) => fs.readFileSync(it, 'utf8')).join(), [PLAIN, long].join(), 'the sources');
  });
}

/** Writes a type into a source behind a link, which stays a link, and whose file keeps its rights. */
function linked() {
  return withFolder(async (folder) => {
    write(folder, { 'made.ts': PLAIN, 'mod.ts': { linkTo: 'made.ts' } });
    const [link, file] = ['mod.ts', 'made.ts'].map((name) => path.join(folder, name));
    fs.chmodSync(file, 0o640);
    same((await run(['fix', '.'], { cwd: folder })).status, 0, 'the status');
    same(`${fs.readlinkSync(link)} ${(fs.statSync(file).mode & 0o777).toString(8)}`, 'made.ts 640', 'the link and the rights');
    same(fs.readFileSync(file, 'utf8'), TYPED, 'the source');
    same(fs.readdirSync(folder).filter((it) => it.startsWith('.')).join(), '', 'what is left beside');
  });
}

cases([
  ['fix on a full disk', fullDisk],
  ['fix behind a link', linked],
  ...SOURCES.map(/** @returns {Case} */ ([name, text, wanted, told, first = '']) => [`fix of ${name}`, () => withFolder(async (folder) => {
    write(folder, { 'mod.ts': text, 'made.ts': MADE });
    const shown = (await run(['fix', '--dry', '.'], { cwd: folder })).out;
    const { status, out, err } = await run(['fix', '.'], { cwd: folder });
    same(status, told ? 1 : 0, `the status of\n${out}${err}\nthat`);
    holds(!told || out.includes(told), out);
    const bytes = (/** @type {string | Buffer} */ it) => JSON.stringify(Buffer.from(/** @type {string} */ (it)).toString('latin1'));
    const all = wanted === null ? text : first && typeof wanted === 'string' ? first + wanted : wanted;
    same(bytes(fs.readFileSync(path.join(folder, 'mod.ts'))), bytes(all), 'the source');
    same((await run(['fix', '--dry', '.'], { cwd: folder })).out, '', 'what a second run changes');
    // Git takes UTF-16 for no text.
    if (wanted === null || typeof text !== 'string') return;
    fs.writeFileSync(path.join(folder, 'mod.ts'), text);
    const { status: applied, stderr } = childProcess.spawnSync('git', ['apply', '-'], { cwd: folder, input: shown, encoding: 'utf8' });
    same(`${applied}${stderr}`, '0', 'what git says of the diff');
    same(bytes(fs.readFileSync(path.join(folder, 'mod.ts'))), bytes(all), 'the source with the diff');
  })]),
]);

/** Whether the page shows what comes: each line of the change that stands below a title, in its order. */
function isShown(/** @type {string} */ title, /** @type {number} */ place, /** @type {string} */ out) {
  const page = readOr(path.join(DOCS, 'guide.md'), '');
  const section = page.slice(page.indexOf(`\n## ${title}\n`));
  const shown = [...section.matchAll(/```diff\n([^]*?)```/g)][place][1].trimEnd().split('\n');
  let at = 0;
  for (const line of out.split('\n')) if (line === shown[at]) at += 1;
  same(shown[at], undefined, `what the page shows in\n${out}\nand its line`);
}

test('fix --dry writes nothing', async () => {
  const file = path.join(PACKAGES, 'fixed/mod.ts');
  const before = fs.readFileSync(file, 'utf8');
  const { out } = await run(['fix', '--dry', '.'], { cwd: path.dirname(file) });
  same(fs.readFileSync(file, 'utf8'), before, 'the source');
  holds(out.includes('\n+import type { Shape } from "./shapes.ts";\n'), out);
  isShown('What `fix` writes', 0, out);
});
for (const [name, wanted] of /** @type {[string, number][]} */ ([['fixed', 1], ['fixed-workspace', 1], ['missing-return-type', 0], ['workspace-messages', 0], ['default-export-value', 0], ['empty-bodies-untyped', 0]])) {
  test(`fix of ${name}`, () => withFolder(async (folder) => {
    fs.cpSync(path.join(PACKAGES, name), folder, { recursive: true });
    const first = await run(['fix', '.'], { cwd: folder });
    same(first.status, wanted, `the status of\n${first.out}${first.err}\nthat`);
    same((await run(['check', '.'], { cwd: folder })).status, wanted, 'the status of check');
    const again = await run(['fix', '--dry', '.'], { cwd: folder });
    same(again.out, '', 'what a second run changes');
  }));
}

// ---- types of what lies around a folder: in its workspace, and among the packages of the system

const diffOf = async (/** @type {string} */ dir) => (await run(['fix', '--dry', '.'], { cwd: dir })).out.replaceAll('packages/user/', '');
test('fix of a member, and of its workspace', async () => {
  const root = path.join(PACKAGES, 'fixed-workspace');
  const own = await diffOf(path.join(root, 'packages/user'));
  same(own, await diffOf(root), 'the change');
  const wanted = ['import type { Core, Depth, Made } from "@test/kit";', 'const depth: Depth =', 'const _default: Core =', 'ask: typeof kit.hidden = kit.hidden;'];
  for (const each of wanted) holds(own.includes(each), own);
  for (const each of ['const other:', 'const hidden:', 'later():']) holds(!own.includes(each), own);
  isShown('What `fix` writes', 1, own);
});
for (const [title, list] of [['pnpm', 'packages:\n  - "packages/*"\n'], ['a list without quotes', 'packages:\n\n# all\n- packages/*   # these\nother: 1\n']]) {
  test(`fix of a member of a workspace of pnpm: ${title}`, () => withFolder(async (folder) => {
    fs.cpSync(path.join(PACKAGES, 'fixed-workspace'), folder, { recursive: true });
    fs.writeFileSync(path.join(folder, 'package.json'), '{}');
    holds(!(await diffOf(path.join(folder, 'packages/user'))).includes('Made'), 'no workspace is there');
    fs.writeFileSync(path.join(folder, 'pnpm-workspace.yaml'), list);
    holds((await diffOf(path.join(folder, 'packages/user'))).includes('const made: Made<number> ='), 'its members are found');
  }));
}
test('fix of elements without a configuration of the compiler', () => withFolder(async (folder) => {
  const runtime = 'export namespace JSX { interface Element { kind: string } interface IntrinsicElements { div: {} } }\n';
  write(folder, {
    'package.json': '{ "name": "own", "version": "1.0.0", "exports": "./mod.tsx", "dependencies": { "react": "1" } }',
    'deno.json': '{}',
    'node_modules/react/package.json': '{ "types": "./index.d.ts" }',
    'node_modules/react/index.d.ts': 'export declare const version: string;\n',
    'node_modules/react/jsx-runtime.d.ts': runtime,
    'mod.tsx': 'export function View() { return <div />; }\nexport const arrow = () => <div />;\n',
  });
  const { out } = await run(['fix', '--dry', '.'], { cwd: folder });
  for (const each of ['+import type { JSX } from "react/jsx-runtime";\n', '+export function View(): JSX.Element {', '+export const arrow = (): JSX.Element =>']) holds(out.includes(each), out);
  write(folder, {
    'package.json': '{ "name": "own", "version": "1.0.0", "exports": "./mod.tsx", "dependencies": { "preact": "1" } }',
    'deno.json': '{ "compilerOptions": { "jsx": "react-jsx", "jsxImportSource": "preact" } }',
    'node_modules/preact/package.json': '{ "types": "./index.d.ts" }', 'node_modules/preact/index.d.ts': 'export {};\n', 'node_modules/preact/jsx-runtime.d.ts': runtime,
  });
  const preact = (await run(['fix', '--dry', '.'], { cwd: folder })).out;
  holds(preact.includes('+import type { JSX } from "preact/jsx-runtime";\n'), preact);
}));
test('git takes the diff of fix --dry', () => withFolder(async (folder) => {
  write(folder, { 'one/deno.json': '{ "name": "@test/one", "version": "1.0.0", "exports": "./mod.ts" }', 'one/mod.ts': 'export const a = Math.max(1);\n', 'other/note.txt': '' });
  const git = (/** @type {string} */ cwd, /** @type {string[]} */ words, input = '') => childProcess.spawnSync('git', words, { cwd, input, encoding: 'utf8' });
  const [one, other] = ['one', 'other'].map((name) => path.join(folder, name));
  const taken = async (/** @type {string} */ cwd, /** @type {string} */ word, /** @type {string} */ at) => {
    const { out, err } = await run(['fix', '--dry', word], { cwd });
    holds(/1 type to write in 1 file, /.test(err), err);
    const { status, stderr } = git(at, ['apply', '--check', '-'], out);
    same(`${status}${stderr}`, '0', `what git says of\n${out}`);
  };
  await taken(folder, 'one', folder);
  await taken(one, '.', one);
  await taken(other, '../one', one);
  git(folder, ['init', '-q']);
  const { out } = await run(['fix', '--dry', '../one'], { cwd: other });
  holds(out.startsWith('--- a/one/mod.ts\n'), out);
  same(git(folder, ['apply', '-'], out).status, 0, 'the status of git apply');
  holds(fs.readFileSync(path.join(one, 'mod.ts'), 'utf8').includes('a: number'), 'the type is written');
}));
test('fix with packages of NODE_PATH', () => withFolder(async (folder) => {
  write(folder, {
    'system/far/package.json': '{ "types": "a.d.ts" }',
    'system/far/a.d.ts': 'export interface Far { a: 1 }\nexport declare function far(): Far;',
    'system/@types/scoped__near/index.d.ts': 'export declare const near: string[];',
    'own/package.json': '{ "name": "own", "exports": "./mod.ts", "dependencies": { "far": "1", "@scoped/near": "1" } }',
    'own/mod.ts': 'import { far } from "far";\nimport { near } from "@scoped/near";\nexport const a = far();\nexport const b = near.map((it) => it);\n',
  });
  const asked = (/** @type {NodeJS.ProcessEnv} */ environment) => childProcess.spawnSync(LAUNCHER, ['fix', '--dry', 'own'], { cwd: folder, encoding: 'utf8', env: { ...process.env, ...environment } });
  same(asked({}).stdout, '', 'what is written without it');
  const { stdout } = asked({ NODE_PATH: path.join(folder, 'system') });
  for (const each of ['+import type { Far } from "far";\n', '+export const a: Far = far();\n', '+export const b: string[] = ']) holds(stdout.includes(each), stdout);
}));
