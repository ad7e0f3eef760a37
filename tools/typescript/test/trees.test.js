'use strict';
// Tests of the tree, the tables and the printer by themselves, without the program.
const fs = require('fs');
const path = require('path');
const { cases, holds } = require('./support/helpers.js');
const { roundTrip } = require('../dev/roundtrip.js');
const { ownTables, World, tablesOf } = require('../src/tables/symbols.js');
const { parse, toTree } = require('../src/tree/index.js');
const { print } = require('../src/tree/print/index.js');
const { isFrom } = require('../src/compiler/typescript.js');

const FOLDERS = ['forms', 'packages'];

function sourcesBelow(/** @type {string} */ dir, /** @type {string[]} */ found = []) {
  for (const each of fs.readdirSync(dir, { withFileTypes: true })) {
    const file = path.join(dir, each.name);
    if (each.isDirectory()) sourcesBelow(file, found);
    else if (/\.[cm]?tsx?$/.test(each.name)) found.push(file);
  }
  return found.sort();
}

function check(/** @type {unknown} */ value, /** @type {string} */ what) {
  if (!value) throw new Error(what);
}

/** Source, tree, text, tree. What the parser refuses has no tree; the files of `forms` have to have one, that of newer forms by the compilers that read it. */
function comesBack(/** @type {string} */ file) {
  const found = roundTrip(file, fs.readFileSync(file, 'utf8'));
  const mayBeRefused = !file.includes(`${path.sep}forms${path.sep}`) || (file.endsWith('newer.ts') && !isFrom(5, 9));
  if (found && found[0] === 'refused' && mayBeRefused) return;
  check(!found, `${(found || []).join(': ')}`);
}

/** @typedef {{ sym?: string, span: [number, number], ctxt?: number }} Ident */

/** The nodes of a tree that have a range and a name, as `[name, text of the range]`. */
function named(/** @type {unknown} */ part, /** @type {Buffer} */ bytes, /** @type {[string, string][]} */ found = []) {
  if (part === null || typeof part !== 'object') return found;
  const value = /** @type {Ident} */ (part);
  if (typeof value.sym === 'string' && value.span) found.push([value.sym, bytes.subarray(value.span[0] - 1, value.span[1] - 1).toString()]);
  for (const each of Object.values(value)) named(each, bytes, found);
  return found;
}

function namesStandWhereTheyAre(/** @type {string} */ file) {
  const text = fs.readFileSync(file, 'utf8');
  const found = named(toTree(parse(file, text)).program, Buffer.from(text));
  check(found.length > 3, 'it has names');
  const wrong = found.find(([name, there]) => there !== name && there !== `${name}?` && !there.startsWith(`${name}:`) && !there.startsWith(`${name}?:`));
  check(!wrong, `${wrong} differ`);
}

function treeOf(/** @type {string} */ text, name = 'mod.ts') {
  return toTree(parse(name, text), { short: true });
}

/** The scope number of each mention of a name, in order. */
function scopesOf(/** @type {string} */ text, /** @type {string} */ name) {
  /** @type {[place: number, scope: number][]} */
  const found = [];
  const walk = (/** @type {unknown} */ part) => {
    if (part === null || typeof part !== 'object') return;
    const value = /** @type {Ident} */ (part);
    if (value.sym === name && value.ctxt !== undefined) found.push([value.span[0], value.ctxt]);
    Object.values(value).forEach(walk);
  };
  walk(toTree(parse('mod.ts', text)).program);
  return found.sort(([a], [b]) => a - b).map(([, ctxt]) => ctxt);
}

/** @type {[title: string, text: string, name: string, holds: (scopes: number[]) => boolean][]} */
const SCOPES = [
  ['a value is no type', 'type T = 1; function f(T: T) { return T; }', 'T', ([top, param, type, value]) => top === type && param === value && top !== param],
  ['a name that nothing binds', 'f(Symbol)', 'Symbol', ([only]) => only === 1],
  ['a type parameter', 'class C<T> { m(a: T): T { return a; } }', 'T', (all) => new Set(all).size === 1 && all[0] > 2],
  ['blocks of one namespace', 'namespace N { export type T = 1 } namespace N { type U = T }', 'T', ([first, second]) => first === second && first > 2],
  ['members of an enum', 'const A = 1; enum E { A, B = A } A', 'A', ([top, member, inside, outside]) => member === inside && top === outside && top !== member],
  ['var in a block', 'function f() { { var a = 1 } return a; } a', 'a', ([inner, after, outside]) => inner === after && outside === 1],
  ['infer', 'type A<X> = X extends infer U ? U : U', 'U', ([bound, yes, no]) => bound === yes && no === 1],
];

/**
 * A module as the tables are made of it.
 *
 * @returns {import('../src/package/types').Module}
 */
function moduleOf(/** @type {string} */ specifier, text = '') {
  return { specifier, path: 'mod.ts', text, isDeclaration: false, hasEffects: false, mediaType: 'TypeScript', tree: treeOf(text) };
}

function depsOf(/** @type {string} */ text, /** @type {string} */ name) {
  const { symbols, swc_ids: ids = [] } = ownTables(moduleOf('file:///mod.ts', text));
  const [symbol] = symbols.filter(({ id }) => ids.some(([[sym], of]) => sym === name && of === id));
  const nameOf = (/** @type {import('../src/tables/types').Dep} */ { Id, QualifiedId, ImportType }) => {
    if (Id) return Id[0];
    return QualifiedId ? [QualifiedId[0][0], ...QualifiedId[1]].join('.') : (ImportType || []).flat().join('.');
  };
  const definitions = (symbol.decls || []).map(({ kind }) => kind.Definition);
  return JSON.stringify(definitions.flatMap((each) => ((each && each.deps) || []).map(([dep]) => nameOf(dep))));
}

const DEPENDENCIES = [
  ['no body, but the types', 'type A = 1; type B = 1; const c = 1; function f(a: A = c): B { return c; }', 'f', '["A","B"]'],
  ['a default without type', 'const c = {}; function f(a = c) {}', 'f', '["c"]'],
  ['no value behind a type', 'type A = 1; const c = 1; const x: A = c', 'x', '["A"]'],
  ['an assertion hides its operand', 'type A = 1; const c = 1; const x = c as A', 'x', '["A"]'],
  ['what stands in an object', 'const c = 1; const x = { c, d: [c.e] }', 'x', '["c","c.e"]'],
  ['no call', 'const c = () => 1; const x = c()', 'x', '[]'],
  ['heritage', 'class A {} namespace N { export class B {} export interface C {} } class X extends A implements N.C {}', 'X', '["A","N.C"]'],
  ['an indexed type is asked for whole', 'class C { p: 1 } type X = C["p"]', 'X', '["C"]'],
  ['a queried name', 'const a = { b: 1 }; type X = typeof a.b', 'X', '["a.b"]'],
  ['an import type', 'type X = import("./y").Z.W', 'X', '["./y.Z.W"]'],
  ['no type parameter', 'type X<T> = T', 'X', '[]'],
  ['the type that a body asserts', 'type A = 1; type B = 1; const c = 1; function f() { g(c as B); return (c as A); }', 'f', '["A"]'],
  ['the type that an arrow asserts', 'type A = 1; const c = 1; const x = () => { return <A>c; }', 'x', '["A"]'],
  ['no type behind another return', 'type A = 1; const c = 1; function f() { if (c) return; return c as A; }', 'f', '[]'],
  ['no type of a generator', 'type A = 1; const c = 1; function* f() { return c as A; }', 'f', '[]'],
];

function circle() {
  const sources = { a: 'export * from "b"; export * from "c"; export default 1', b: 'export * from "a"', c: 'export const x = 1; export default 2' };
  const world = new World((_, text) => text);
  for (const [specifier, text] of Object.entries(sources)) world.add(specifier, { tables: ownTables(moduleOf(specifier, text)) });
  const made = tablesOf(moduleOf('a'), world);
  check(JSON.stringify(made.resolved_exports) === '[["default","a"],["x","a"]]', JSON.stringify(made.resolved_exports));
  check((made.re_export_all_nodes || [])[0][1] === 'c', 'the one that leads back comes last');
}

function keptComments() {
  const text = '/** doc */\nexport interface A {\n  /** b */\n  b: 1;\n  // @ts-ignore\n  c: 2;\n  /** end */\n}\n';
  const { program, comments } = treeOf(text);
  holds(program, 'there is a tree');
  const printed = print(program, comments);
  check(printed === text, printed);
}

/** What a body keeps that is cut short, of each of its returns the kind of the argument. */
function returnsKept(/** @type {string} */ text) {
  const { program } = treeOf(text);
  const [item] = (program && program.Script && program.Script.body) || [];
  const { body } = (item && item.Decl && item.Decl.Fn && item.Decl.Fn.function) || { body: null };
  return ((body && body.stmts) || []).map((each) => (each.Return && each.Return.arg ? Object.keys(each.Return.arg)[0] : 'nothing')).join(' ');
}

const KEPT_RETURNS = [
  ['a literal', 'function f() { g(); return 1; }', 'Lit'],
  ['a template', 'function f() { const a = 1; return `${a}`; }', 'Tpl'],
  ['an assertion in parentheses', 'function f() { return (a as T); }', 'Paren'],
  ['a constant', 'function f() { return a as const; }', 'TsConstAssertion'],
  ['no call', 'function f() { return g(); }', 'This'],
  ['no literal in a block', 'function f() { { return 1; } }', 'This'],
  ['no literal behind another return', 'function f() { if (a) return; return 1; }', 'nothing This'],
  ['no literal of a generator', 'function* f() { return 1; }', 'This'],
];

cases(/** @type {import('./support/helpers.js').Case[]} */ ([
  ...FOLDERS.flatMap((each) => sourcesBelow(path.join(__dirname, each))).map((file) => [`round trip of ${path.relative(__dirname, file)}`, () => comesBack(file)]),
  ...['unicode.ts', 'types.ts', 'statements.ts'].map((name) => [`places in ${name}`, () => namesStandWhereTheyAre(path.join(__dirname, 'forms', name))]),
  ...SCOPES.map(([name, text, sym, isRight]) => [`scopes: ${name}`, () => check(isRight(scopesOf(text, sym)), String(scopesOf(text, sym)))]),
  ...DEPENDENCIES.map(([name, text, symbol, wanted]) => [`dependencies: ${name}`, () => check(depsOf(text, symbol) === wanted, depsOf(text, symbol))]),
  ...KEPT_RETURNS.map(([name, text, wanted]) => [`a body cut short keeps ${name}`, () => check(returnsKept(text) === wanted, returnsKept(text))]),
  ['tables of a circle of re-exports', circle],
  ['comments where they stood', keptComments],
]));
