#!/usr/bin/env node
'use strict';
// Feeds the command line with random modules and with real ones that are edited, and looks whether it stands.
//
//   FAST_CHECK=PROGRAM node fuzz.js COUNT [SEED [FOLDER ..]]
//   FAST_CHECK=PROGRAM node fuzz.js --types COUNT SEED FOLDER ..
//   node fuzz.js --write INTO COUNT SEED [FOLDER ..]
//
// Of each seed a package of up to four modules is made: of modules of `fuzz_modules.js`, or of real modules of the FOLDERs with edits (empty bodies, types
// dropped, members and items moved, twice there or gone). A module that the compiler's parser refuses is left out. Each command has to end with status 0 or 1,
// but where a value is nested too deep; a tree that is printed has to be read back as the same, and so has each skeleton; and a second `fix` has to change
// nothing. What fails is reported with its seed; the package of one seed is made again by `fuzz.js 1 SEED`.
//
// With `--types` each seed takes one of the packages below the FOLDERs, drops up to four written types in its texts (no file changes), and lets `fix` write types:
// the compiler may find no error that it has not found without them, and has to declare what it has declared; and a second run has to change nothing.
//
// With `--write` the packages are written into a folder each of INTO, for `compare_packages.js`.
const fs = require('fs');
const os = require('os');
const path = require('path');
const { analyse } = require('../src/program/answer.js');
const { main } = require('../src/cli/main.js');
const { Project, fix } = require('../src/fix/index.js');
const { ModuleWriter, Random } = require('./fuzz_modules.js');
const { isAlike } = require('../src/verify/declarations.js');
const { compared, declarationName, emitted, errorsIn, programOf, resolverOf, surfaceOf } = require('../src/verify/surface.js');
const { Progress } = require('../src/cli/progress.js');
const { roundTrip } = require('./roundtrip.js');
const { writable } = require('../src/skeleton/reserved.js');
const { printed } = require('../src/skeleton/write.js');
const { parse, toTree } = require('../src/tree/index.js');
const { whole: ts } = require('../src/compiler/typescript.js');

/** @typedef {import('../src/verify/types').SurfaceDifference} SurfaceDifference */
/** @typedef {import('../src/program/types').RunContext} RunContext */
/** @typedef {import('../src/program/types').World} World */
/** @typedef {import('../src/package/types').Module} Module */

const { SyntaxKind: K } = ts;
const MODULES = 4;
const COMMANDS = [['check', '.'], ['skeleton', '.'], ['skeleton', '--dts', '.'], ['input', '.'], ['report', '.', '../page.html'], ['diff', '.', '.']];
// `--verify` and `fix` take as long as all others, and each is asked of one package in so many.
const VERIFIED = 20;

// ---- edits of real modules

/**
 * The parts of a node, of which one of any kind may have some.
 *
 * @param {ts.Node} node
 * @returns {{ type?: ts.TypeNode, initializer?: ts.Node, body?: ts.Node, members?: readonly ts.Node[], properties?: readonly ts.Node[], statements?: readonly ts.Node[] }}
 */
const partsOf = (node) => /** @type {object} */ (node);

/** Whether a node is one of the statements of its file. */
const isStatement = (/** @type {ts.Node} */ node) => node.kind !== K.EndOfFileToken;

/** @type {Record<string, (node: ts.Node) => boolean>} */
const isEdited = {
  'an empty body': (node) => node.kind === K.Block && ts.isFunctionLike(node.parent),
  'no type': (node) => ts.isTypeNode(node) && partsOf(node.parent).type === node && !ts.isTypeNode(node.parent) && !ts.isTypeAliasDeclaration(node.parent),
  gone: (node) => ts.isClassElement(node) || ts.isTypeElement(node) || (node.parent !== undefined && ts.isSourceFile(node.parent) && isStatement(node)),
};
isEdited.twice = isEdited.gone;
isEdited.moved = isEdited.gone;

/**
 * What an edit of a kind makes of a node: replacements `[start, end, text]`.
 *
 * @returns {[number, number, string][]}
 */
function replacements(/** @type {string} */ kind, /** @type {ts.Node} */ node, /** @type {ts.SourceFile} */ file, /** @type {Random} */ r) {
  const text = (/** @type {ts.Node} */ it) => file.text.slice(it.pos, it.end);
  if (kind === 'an empty body') return [[node.getStart(file), node.end, '{}']];
  if (kind === 'no type') return [[file.text.lastIndexOf(':', node.getStart(file)), node.end, '']];
  if (kind === 'gone') return [[node.pos, node.end, '']];
  if (kind === 'twice') return [[node.end, node.end, `\n${text(node)}`]];
  const { members, properties, statements } = partsOf(node.parent);
  const beside = (members || properties || statements || []).filter((it) => it !== node && isEdited.gone(it));
  if (!beside.length) return [];
  const other = r.of(beside);
  return [[node.pos, node.end, text(other)], [other.pos, other.end, text(node)]];
}

/** A real text with an edit at a random place. */
function edited(/** @type {string} */ name, /** @type {string} */ text, /** @type {Random} */ r) {
  const file = ts.createSourceFile(name, text, ts.ScriptTarget.ESNext, true);
  const kind = r.of(Object.keys(isEdited));
  /** @type {ts.Node[]} */
  const found = [];
  const walk = (/** @type {ts.Node} */ node) => {
    if (isEdited[kind](node)) found.push(node);
    ts.forEachChild(node, walk);
  };
  walk(file);
  const made = found.length ? replacements(kind, r.of(found), file, r) : [];
  return made.sort(([a], [b]) => b - a).reduce((all, [start, end, now]) => all.slice(0, start) + now + all.slice(end), text);
}

function sourcesBelow(/** @type {string} */ dir, /** @type {string[]} */ found = []) {
  for (const it of fs.readdirSync(dir, { withFileTypes: true })) {
    const file = path.join(dir, it.name);
    if (it.isDirectory() && it.name !== 'node_modules') sourcesBelow(file, found);
    else if (it.isFile() && /\.[cm]?tsx?$/.test(it.name)) found.push(file);
  }
  return found;
}

// ---- packages

/** The modules of a seed: names and texts. */
function modulesOf(/** @type {number} */ seed, /** @type {string[]} */ sources) {
  const r = new Random(seed);
  const made = Array.from({ length: MODULES }, (_, place) => {
    if (!sources.length || r.one(2)) {
      const isDeclaration = r.one(5);
      const ending = r.one(3) ? r.of(isDeclaration ? ['.d.mts', '.d.cts'] : ['.tsx', '.mts', '.cts']) : isDeclaration ? '.d.ts' : '.ts';
      return [`m${place}${ending}`, new ModuleWriter(seed * MODULES + place, isDeclaration).module()];
    }
    const file = r.of(sources);
    const [ending] = /(\.d)?\.[cm]?tsx?$/.exec(file) || [''];
    let text = fs.readFileSync(file, 'utf8').replace(/^\ufeff/, '');
    for (let edits = 1 + r.below(3); edits > 0; edits--) text = edited(file, text, r);
    return [`m${place}${ending}`, text];
  });
  return made.map(([name, text]) => /** @type {[string, string]} */ ([name, text])).filter(([name, text]) => toTree(parse(name, text)).errors.length === 0);
}

async function run(/** @type {string[]} */ words, /** @type {string} */ cwd) {
  const keeper = () => ({ text: '', write(/** @type {string} */ part) { this.text += part; return true; } });
  const [out, err] = [keeper(), keeper()];
  const status = await main(words, { cwd, environment: process.env, out, err });
  return { status, out: out.text, err: err.text };
}

const PLACES = new Set(['span', 'dot3_token', 'ctxt']);

const SYMBOL = JSON.stringify({ type_name: { Ident: { sym: 'symbol' } } });

const ANY = { TsKeywordType: { kind: 'TsAnyKeyword' } };
const NEVER = JSON.stringify({ TsKeywordType: { kind: 'TsNeverKeyword' } });

/**
 * A part of a tree without places, without members that have their defaults, and without how a text is written, in one order.
 *
 * @param {unknown} part
 * @returns {unknown}
 */
function plain(part) {
  if (part === null || typeof part !== 'object') return part;
  if (Array.isArray(part)) return part.map(plain);
  const value = /** @type {forms.Part} */ (part);
  // The program writes `unique symbol` with a name in place of the word.
  if (value.TsTypeRef && JSON.stringify(plain(value.TsTypeRef)) === SYMBOL) return { TsKeywordType: { kind: 'TsSymbolKeyword' } };
  // And `{} as never` where `{} as any` is printed.
  if (value.TsAs && JSON.stringify(plain(value.TsAs.type_ann)) === NEVER) return plain({ TsAs: { ...value.TsAs, type_ann: ANY } });
  /** @type {Record<string, unknown>} */
  const made = {};
  for (const [key, own] of Object.entries(value).sort(([a], [b]) => (a < b ? -1 : 1))) {
    const it = key === 'TsModuleBlock' && value.TsModuleBlock ? { ...value.TsModuleBlock, body: writable(value.TsModuleBlock.body || []) } : own;
    const isDefault = it === null || it === false || (Array.isArray(it) && it.length === 0);
    const isLeftOut = PLACES.has(key) || isDefault || (key === 'raw' && value.value !== undefined);
    if (!isLeftOut) made[key] = key === 'spread' ? true : plain(it);
  }
  return made;
}

/** A module as text that is the same where the trees are, but for a list of exports without names, which only says that it is a module. */
function shape(/** @type {forms.Module} */ program) {
  const isNamed = (/** @type {forms.ModuleItem} */ { ModuleDecl: it }) => !it || !it.ExportNamed || it.ExportNamed.src || (it.ExportNamed.specifiers || []).length;
  return JSON.stringify(plain(writable(program.body || []).filter(isNamed)));
}

/**
 * What is wrong with the skeletons of a folder: each has to be read back as the tree that the program answered.
 *
 * @returns {Promise<string | null>}
 */
async function wrongSkeleton(/** @type {string} */ folder) {
  const context = { cwd: folder, environment: process.env, progress: new Progress({ write() {} }, false) };
  const world = await analyse(folder, {}, context);
  for (const { specifier, name, text } of printed(world)) {
    const { program, errors } = toTree(parse(name, text));
    if (errors.length) return `the skeleton of ${name} is not read: ${errors[0].message}\n${text}`;
    const skeleton = world.skeletons.get(specifier);
    if (!skeleton || !program || !program.Module) return `the skeleton of ${name} is read as no module`;
    const [before, after] = [shape(skeleton.program), shape(program.Module)];
    let at = 0;
    while (before[at] === after[at] && at < before.length) at += 1;
    const around = [before, after].map((it) => it.slice(Math.max(0, at - 200), at + 100)).join('\n');
    if (before !== after) return `the skeleton of ${name} is read as another tree:\n${around}\n${text}`;
  }
  return null;
}

/** Writes a package of modules, each of which is an entry point. */
function write(/** @type {[string, string][]} */ modules, /** @type {string} */ folder) {
  fs.mkdirSync(folder, { recursive: true });
  for (const [name, text] of modules) fs.writeFileSync(path.join(folder, name), text);
  const exported = Object.fromEntries(modules.map(([name], place) => [place ? `./${name}` : '.', `./${name}`]));
  fs.writeFileSync(path.join(folder, 'deno.json'), JSON.stringify({ name: '@test/fuzz', version: '1.0.0', exports: exported }));
}

/** Writes the packages of so many seeds. */
function writeAll(/** @type {string} */ into, /** @type {number} */ count, /** @type {number} */ first, /** @type {string[]} */ folders) {
  const sources = folders.flatMap((it) => sourcesBelow(it)).sort();
  for (let seed = first; seed < first + count; seed++) {
    const modules = modulesOf(seed, sources);
    if (modules.length) write(modules, path.join(into, String(seed)));
  }
}

/**
 * What is wrong with the package of a seed, or null.
 *
 * @returns {Promise<string | null>}
 */
async function wrong(/** @type {number} */ seed, /** @type {[string, string][]} */ modules, /** @type {string} */ folder) {
  for (const [name, text] of modules) {
    const found = roundTrip(name, text);
    if (found) return `${name}: ${found.join(': ')}`;
  }
  write(modules, folder);
  for (const words of [...COMMANDS, ...(seed % VERIFIED ? [] : [['check', '--verify', '.']])]) {
    const { status, out, err } = await run(words, folder);
    if (status === 2 && (out + err).includes('[nested-too-deep]')) return null;
    const isStatus = status === 0 || status === 1 || (words[0] === 'diff' && (out + err).match(/has no skeletons to compare|^(?:preview|unknown): /m));
    if (!isStatus) return `${words.join(' ')} ends with status ${status}: ${out.slice(-400)}${err.slice(-400)}`;
  }
  return await wrongSkeleton(folder) || (seed % VERIFIED === 1 ? wrongTypes(folder) : null);
}

/**
 * What is wrong with the types that are written into the package of a folder: a second run has to change nothing, and what has skeletons then is as it is without.
 *
 * @returns {Promise<string | null>}
 */
async function wrongTypes(/** @type {string} */ folder) {
  const first = await run(['fix', '.'], folder);
  if (first.status > 1) return `fix ends with status ${first.status}: ${first.out.slice(-400)}${first.err.slice(-400)}`;
  const again = await run(['fix', '--dry', '.'], folder);
  return again.out ? `a second fix changes\n${again.out}` : wrongSkeleton(folder);
}

// ---- types that are dropped, and written by `fix`

const hasValue = (/** @type {ts.Node} */ node) => Boolean(partsOf(node).initializer && (ts.isVariableDeclaration(node) || ts.isPropertyDeclaration(node) || ts.isParameter(node)));

/** The types of a source without which it still says what is declared: those of values and of what bodies return, outside of bodies. */
function droppable(/** @type {ts.SourceFile} */ file, /** @type {ts.Node[]} */ found = []) {
  const walk = (/** @type {ts.Node} */ node) => {
    const { type, body } = partsOf(node);
    if (type && (hasValue(node) || (ts.isFunctionLike(node) && body))) found.push(type);
    if (!ts.isBlock(node)) ts.forEachChild(node, walk);
  };
  walk(file);
  return found;
}

/** The texts of some modules without up to four of their types, by their paths. */
function withoutTypes(/** @type {Module[]} */ modules, /** @type {Random} */ r) {
  /** @type {Map<string, string>} */
  const made = new Map();
  for (let drops = 1 + r.below(4); drops > 0; drops--) {
    const { path: name, text: first } = r.of(modules);
    const text = made.get(name) || first;
    const file = ts.createSourceFile(name, text, ts.ScriptTarget.ESNext, true);
    const found = droppable(file);
    if (found.length) made.set(name, replacements('no type', r.of(found), file, r).reduce((all, [start, end]) => all.slice(0, start) + all.slice(end), text));
  }
  return made;
}

/** The compiler over a package as `fix` has it, but that declarations are written, each beside its source. */
function projectOf(/** @type {string} */ dir) {
  const project = new Project(dir);
  Object.assign(project.options, { noEmit: false, noEmitOnError: false, emitDeclarationOnly: true, outDir: undefined, outFile: undefined, declarationDir: undefined });
  return project;
}

/** What the compiler finds wrong in the modules of a package, and what it declares for all that its entry points lead to. */
function compilerView(/** @type {World} */ world, /** @type {Project} */ project) {
  const textOf = (/** @type {{ path: string, text: string }} */ it) => /** @type {[string, string]} */ ([it.path, it.text]);
  const data = world.info.jsonModules.map(textOf);
  const texts = new Map(world.info.modules.filter((it) => !/\.[cm]?jsx?$/.test(it.path)).map(textOf));
  const program = project.program(world, texts);
  const errors = [...texts.keys()].flatMap((name) => errorsIn(program, name).map((it) => `${path.basename(name)}: ${it.code} ${it.text}`));
  const made = new Map([...emitted(program, texts), ...data]);
  const entries = world.info.entryPoints.flatMap((it) => world.files.get(it) || []).map((it) => declarationName(it.path));
  return { errors, made, surface: surfaceOf(programOf(made, resolverOf(world, made)), made, entries) };
}

/**
 * Whether a declaration is another one with types in place of `any`, which the compiler takes in a circle until a type is written there; and with imported names
 * in place of types `import("./a").T`.
 */
function isNarrowed(/** @type {SurfaceDifference} */ { missing, added }) {
  const plainly = (/** @type {string} */ text) => text.replace(/\bimport\("[^"]*"\)\./g, '');
  const pattern = (/** @type {string} */ text) => new RegExp(`^${plainly(text).split(/\bany\b/).map((it) => it.replace(/[^\w\s]/g, '\\$&')).join('.*')}$`);
  return missing.length === added.length && missing.every((it, place) => pattern(it).test(plainly(added[place])));
}

/** What is wrong with the types that `fix` writes into the texts of a package, or null; and how many there are. */
async function wrongWritten(/** @type {string} */ dir, /** @type {Map<string, string>} */ texts, /** @type {RunContext} */ context) {
  const project = projectOf(dir);
  const before = compilerView(await analyse(dir, { texts }, context), project);
  const { world, texts: written, count } = await fix(dir, { texts }, context);
  const after = compilerView(world, project);
  const known = new Set(before.errors);
  const error = after.errors.find((it) => !known.has(it));
  if (error) return { count, found: `the compiler finds with the types: ${error}` };
  // Of a module with an error in its declarations the compiler emits none.
  const stem = (/** @type {SurfaceDifference} */ { key }) => `${key.slice(0, key.lastIndexOf('#'))}.d`;
  const isEmitted = (/** @type {{ made: Map<string, string> }} */ view, /** @type {SurfaceDifference} */ it) => [...view.made.keys()].some((name) => name.startsWith(stem(it)));
  const isDeclared = (/** @type {SurfaceDifference} */ it) => isEmitted(before, it) && isEmitted(after, it);
  const isSame = (/** @type {SurfaceDifference} */ it) => isAlike(it.key, before.surface, after.surface) || isNarrowed(it);
  const differ = compared(before.surface, after.surface).filter((it) => isDeclared(it) && !isSame(it));
  if (differ.length) return { count, found: `the compiler declares ${JSON.stringify(differ[0])}` };
  const again = await fix(dir, { texts: written }, context);
  return { count, found: again.count ? `a second fix writes ${again.count} types` : null };
}

/** Drops types in a package of each of so many seeds, reports what fails, and answers how many types were written, and how many seeds failed. */
async function fuzzTypes(/** @type {number} */ amount, /** @type {number} */ first, /** @type {string[]} */ folders, tell = console.log) {
  const { packagesBelow } = require('./sweep.js');
  const below = (/** @type {string} */ dir) => (fs.existsSync(path.join(dir, 'deno.json')) ? [dir] : packagesBelow(dir));
  const all = folders.flatMap((it) => below(path.resolve(it))).sort();
  const counts = { packages: 0, types: 0, failed: 0 };
  for (let seed = first; seed < first + amount; seed++) {
    const r = new Random(seed);
    const dir = r.of(all);
    const context = { cwd: dir, environment: process.env, progress: new Progress({ write() {} }, false) };
    const world = await analyse(dir, {}, context).catch(() => null);
    const modules = world ? world.info.modules.filter((it) => /(?<!\.d)\.[cm]?tsx?$/.test(it.path)) : [];
    const texts = modules.length ? withoutTypes(modules, r) : new Map();
    if (!texts.size) continue;
    const { count, found } = await wrongWritten(dir, texts, context);
    counts.packages += 1;
    counts.types += count;
    if (!found) continue;
    counts.failed += 1;
    tell(`seed ${seed}: ${dir}: ${found}`);
  }
  return counts;
}

/** Tries so many seeds, reports what fails, and answers how many do. */
async function fuzz(/** @type {number} */ count, /** @type {number} */ first, /** @type {string[]} */ folders, tell = console.log) {
  const sources = folders.flatMap((it) => sourcesBelow(it)).sort();
  const work = fs.mkdtempSync(path.join(os.tmpdir(), 'fast-check-fuzz-'));
  const counts = { modules: 0, failed: 0 };
  try {
    for (let seed = first; seed < first + count; seed++) {
      const folder = path.join(work, 'package');
      fs.rmSync(folder, { recursive: true, force: true });
      const modules = modulesOf(seed, sources);
      counts.modules += modules.length;
      const found = modules.length ? await wrong(seed, modules, folder) : null;
      if (!found) continue;
      counts.failed += 1;
      tell(`seed ${seed}: ${found}`);
    }
  } finally {
    fs.rmSync(work, { recursive: true, force: true });
  }
  return counts;
}

module.exports = { MODULES, fuzz, fuzzTypes };
if (require.main === module && process.argv[2] === '--write') {
  const [into, count, seed, ...folders] = process.argv.slice(3);
  writeAll(into, Number(count), Number(seed), folders);
} else if (require.main === module) {
  const words = process.argv.slice(2);
  const isOfTypes = words[0] === '--types';
  const [count, seed, ...folders] = isOfTypes ? words.slice(1) : words;
  /** @type {Promise<{ failed: number, tried: string }>} */
  const fuzzing = isOfTypes
    ? fuzzTypes(Number(count), Number(seed || 1), folders).then(({ types, packages, failed }) => ({ failed, tried: `${types} types written in ${packages} packages` }))
    : fuzz(Number(count), Number(seed || 1), folders).then(({ modules, failed }) => ({ failed, tried: `${count} packages of ${modules} modules` }));
  fuzzing.then(({ tried, failed }) => {
    console.log(`${tried} from seed ${seed || 1}: ${failed} failed`);
    process.exitCode = failed ? 1 : 0;
  });
}
