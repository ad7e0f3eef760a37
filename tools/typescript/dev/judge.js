'use strict';
// Whether a skeleton package shows what its source package shows, by TypeScript's own compiler: the declarations that it emits
// for both are compared for all that the entry points lead to, and its errors in the skeletons have to be those of the source.
//
//   node judge.js FOLDER [--modules]     the packages below FOLDER, or each of their modules by itself
//   node judge.js FOLDER --dts           and what `skeleton --dts` declares beside what the compiler declares for the skeletons
//   node judge.js FOLDER --drop N        the same with each Nth dependency left out of the tables, to see that the judge notices
//
// Where a package leaves types to inference, they are written first, as the compiler finds them; where that is not enough, the
// package of its declarations is taken. The program is that of the variable FAST_CHECK, else the launcher's.

const childProcess = require('child_process');
const fs = require('fs');
const os = require('os');
const path = require('path');
const { whole: ts } = require('../src/compiler/typescript.js');
const { fix } = require('../src/fix/index.js');
const { inputOf } = require('../src/program/input.js');
const { filesOf, part } = require('../src/program/answer.js');
const { print } = require('../src/tree/print/index.js');
const { Progress } = require('../src/cli/progress.js');
const { restored } = require('../src/skeleton/restored.js');
const { packagesBelow } = require('./sweep.js');
const { parse } = require('../src/tree/index.js');
const { programOf, resolverOf, declarationName, emitted, surfaceOf, compared, errorsIn, takeLooseTypes } = require('../src/verify/surface.js');
const { judgeDeclarations } = require('../src/verify/declarations.js');

/** @typedef {import('../src/verify/surface.js').Surface} Surface */
/** @typedef {import('../src/program/types').Info} Info */
/** @typedef {import('../src/program/types').Answer} Answer */
/** @typedef {import('../src/program/types').Request} Request */

const TOP = path.resolve(__dirname, '../../..');
let isDeclaring = false;

function command(/** @type {string} */ file) {
  return process.env.FAST_CHECK ? [process.env.FAST_CHECK, 'build', file] : [path.join(TOP, 'fast-check'), 'build', file];
}

const dropped = { each: 0, count: 0 };

function kept() {
  dropped.count += 1;
  return dropped.count % dropped.each !== 0;
}

/** Leaves out each Nth of the dependencies that the tables tell. */
function drop(/** @type {Request} */ request) {
  for (const [, module] of request.modules) {
    for (const symbol of (module.Esm || module.Json || { symbols: [] }).symbols) {
      for (const it of symbol.decls || []) {
        const node = it.kind.Definition;
        if (node && node.deps) node.deps = node.deps.filter(kept);
      }
    }
  }
}

/**
 * The program's answers to a request, or its line of refusal.
 *
 * @returns {Answer[]}
 */
function build(/** @type {Request} */ request, /** @type {Info} */ { modules }, /** @type {string} */ work) {
  if (dropped.each) drop(request);
  const file = path.join(work, 'input.json');
  fs.writeFileSync(file, JSON.stringify(request));
  const [program, ...words] = command(file);
  const ran = childProcess.spawnSync(program, words, { maxBuffer: 1 << 30 });
  if (ran.status === 0 || ran.status === 1) return restored(JSON.parse(ran.stdout.toString()), request, modules);
  throw new Error(ran.stderr.toString().trim().split('\n').pop());
}

function writeTexts(/** @type {Iterable<[string, string]>} */ texts) {
  for (const [file, text] of texts) {
    fs.mkdirSync(path.dirname(file), { recursive: true });
    fs.writeFileSync(file, text);
  }
}

function messagesOf(/** @type {Answer[]} */ answers) {
  /** @type {Map<string, import('../src/program/types').Diagnostic>} */
  const found = new Map();
  for (const [, answer] of answers) for (const it of answer.Err || []) found.set(JSON.stringify(it), it);
  return [...found.values()];
}

/** @typedef {ReturnType<typeof ask> & { written?: number }} AskedFolder */

/** Reads a folder and runs the program. */
function ask(/** @type {string} */ dir, /** @type {Record<string, string>} */ exports, /** @type {string} */ work) {
  const { request, info } = inputOf(dir, { exports });
  if (!request) throw new Error(`${info.errors[0].path}: ${info.errors[0].message}`);
  const answers = build(request, info, work);
  const { skeletons } = part(answers, { dir, info, files: filesOf(info, dir) }, dir);
  /** @type {import('../src/program/types').World} */
  const world = { dir, request, info, files: filesOf(info, dir), skeletons, answers, warnings: [], broken: [], faults: [], lost: [], messages: [] };
  return { world, info, answers, messages: messagesOf(answers), programOf: (/** @type {Map<string, string>} */ texts) => programOf(texts, resolverOf(world, texts)) };
}

function textsOf(/** @type {Info} */ info) {
  return new Map([...info.modules, ...info.jsonModules].map((it) => [it.path, it.text]));
}

/** Writes missing types into the files of a folder, as `fix` does. */
async function typed(/** @type {string} */ dir, /** @type {Record<string, string>} */ exports, /** @type {string} */ work) {
  const context = { cwd: dir, environment: process.env, progress: new Progress({ write() {} }, false) };
  const { texts, count } = await fix(dir, { exports }, context);
  writeTexts(texts);
  return { ...ask(dir, exports, work), written: count };
}

/** The package of the declarations that the compiler emits. */
function declared(/** @type {AskedFolder} */ asked, /** @type {Record<string, string>} */ exports, /** @type {string} */ root, /** @type {string} */ work) {
  const texts = textsOf(asked.info);
  const folder = path.join(work, 'declarations');
  writeTexts(configsOf(root, folder));
  const made = [...emitted(asked.programOf(texts), texts)].map(([file, text]) => /** @type {[string, string]} */ ([path.join(folder, path.relative(root, file)), text]));
  writeTexts(made);
  const entries = Object.entries(exports).map(([key, it]) => [key, declarationName(it)]);
  return ask(folder, Object.fromEntries(entries), work);
}

function skeletonTexts(/** @type {AskedFolder} */ asked) {
  const texts = new Map(asked.info.jsonModules.map((it) => [it.path, it.text]));
  const paths = new Map(asked.info.modules.map((it) => [it.specifier, it.path]));
  for (const [specifier, answer] of asked.answers) {
    const file = paths.get(specifier) || specifier;
    if (!answer.Ok) continue;
    const isDeclaration = /\.d\.[cm]?ts$/.test(file);
    texts.set(file, print({ Module: answer.Ok.program }, answer.Ok.comments, { isDeclaration, name: file }));
  }
  return texts;
}

/** What the compiler finds wrong in the files of a program: `code message` by file. */
function errorsOf(/** @type {ts.Program} */ program, /** @type {string[]} */ files) {
  return new Map(files.map((name) => [name, errorsIn(program, name).map((it) => `${it.code} ${it.text}`)]));
}

/** The compiler's errors in skeletons that the source does not have. */
function newErrors(/** @type {ts.Program} */ source, /** @type {ts.Program} */ skeleton, /** @type {string[]} */ names) {
  const [before, after] = [errorsOf(source, names), errorsOf(skeleton, names)];
  const all = new Set([...before.values()].flat());
  const found = [];
  for (const [name, errors] of after) for (const it of errors) if (!all.has(it)) found.push(`${path.basename(name)}: ${it}`);
  return found;
}

/** The differences of two surfaces. */
function differences(/** @type {Surface} */ before, /** @type {Surface} */ after) {
  return compared(before, after).map(({ key, missing, added, isLost, isNew }) => {
    const name = key.replace(/^.*\//, '');
    if (isLost) return { kind: 'lost', name, source: missing[0] };
    if (isNew) return { kind: 'added', name, skeleton: added[0] };
    return { kind: 'differs', name, source: missing.join(' // '), skeleton: added.join(' // ') };
  });
}

/** Judges one package whose files lie in a folder of their own. */
async function judge(/** @type {string} */ dir, /** @type {Record<string, string>} */ exports, /** @type {string} */ work) {
  const began = await typed(dir, exports, work);
  /** @type {AskedFolder} */
  let asked = began;
  let way = began.written ? `types written: ${began.written}` : 'as it is';
  if (asked.messages.length) {
    asked = declared(began, exports, dir, work);
    way = 'declarations';
  }
  const codes = [...new Set(began.messages.map((it) => it.code))];
  if (asked.messages.length) {
    return { way: 'refused', modules: asked.info.modules.length, codes: [...new Set(asked.messages.map((it) => it.code))], first: asked.messages[0] };
  }
  const sourceTexts = textsOf(asked.info);
  const skeletons = skeletonTexts(asked);
  const [source, skeleton] = [asked.programOf(sourceTexts), asked.programOf(skeletons)];
  const entries = asked.info.packages.flatMap((it) => it.exports.map(([, file]) => path.resolve(it.dir, file)));
  const made = (/** @type {ts.Program} */ program, /** @type {Map<string, string>} */ texts) => ([...texts.keys()].every((it) => /\.d\.[cm]?ts$/.test(it)) ? texts : emitted(program, texts));
  const shown = (/** @type {ts.Program} */ program, /** @type {Map<string, string>} */ texts) => {
    const all = made(program, texts);
    return surfaceOf(all === texts ? program : asked.programOf(all), all, entries.map(declarationName));
  };
  const [before, after] = [shown(source, sourceTexts), shown(skeleton, skeletons)];
  const view = { source: before, skeletons, entries, programOf: asked.programOf, skeletonProgram: skeleton };
  return {
    ...(isDeclaring ? { dts: judgeDeclarations(asked.world, { ...view, declared: made(skeleton, skeletons) }) } : {}),
    way,
    codes,
    modules: asked.info.modules.length,
    skeletons: asked.answers.length,
    declarations: before.shown.size,
    notJudged: [...before.lost],
    lines: [...skeletons.values()].join('').split('\n').length,
    differences: differences(before, after),
    errors: newErrors(source, skeleton, [...skeletons.keys()]),
  };
}

// ---- which packages

const SOURCES = ['src/index.ts', 'dist/deno/index.ts', 'index.ts', 'mod.ts', 'lib/index.ts', 'main.ts', 'src/main.ts'];

/** The entry point of an npm package: its TypeScript, or else its declarations. */
function entryOf(/** @type {string} */ dir) {
  const config = JSON.parse(fs.readFileSync(path.join(dir, 'package.json'), 'utf8'));
  const listed = [...SOURCES, config.types, config.typings, 'index.d.ts', 'lib/index.d.ts', 'dist/index.d.ts', 'build/index.d.ts'];
  return listed.find((it) => typeof it === 'string' && /\.ts$/.test(it) && fs.existsSync(path.join(dir, it)));
}

/** A text without its augmentations of the global scope, which are refused wherever they stand, and how many it had. */
function withoutGlobals(/** @type {string} */ file, /** @type {string} */ text) {
  if (!/declare\s+global/.test(text)) return { text, count: 0 };
  const found = parse(file, text).statements.filter((it) => it.flags & ts.NodeFlags.GlobalAugmentation);
  let made = text;
  for (const it of found) made = made.slice(0, it.pos) + made.slice(it.pos, it.end).replace(/[^\n]/g, ' ') + made.slice(it.end);
  return { text: made, count: found.length };
}

/** The configurations of a folder that say what its imports stand for, at their paths in another one. */
function configsOf(/** @type {string} */ dir, /** @type {string} */ folder) {
  const names = fs.readdirSync(dir).filter((it) => /^(package|deno|jsr|tsconfig.*)\.jsonc?$/.test(it));
  return names.map((it) => /** @type {[string, string]} */ ([path.join(folder, it), fs.readFileSync(path.join(dir, it), 'utf8')]));
}

/** A copy of the modules of a package, in a folder of its own, without augmentations of the global scope. */
function copied(/** @type {string} */ dir, /** @type {string} */ entry, /** @type {string} */ work) {
  const { info } = inputOf(dir, { exports: { '.': `./${entry.replace(/^\.\//, '')}` } });
  if (info.errors.length) throw new Error(`${info.errors[0].path}: ${info.errors[0].message}`);
  const folder = path.join(work, 'package');
  writeTexts(configsOf(dir, folder));
  let globals = 0;
  for (const [file, text] of textsOf(info)) {
    const kept = withoutGlobals(file, text);
    globals += kept.count;
    writeTexts([[path.join(folder, path.relative(path.resolve(dir), file)), kept.text]]);
  }
  return { folder, count: info.modules.length, globals };
}

/**
 * Calls back with a folder that is removed behind it.
 *
 * @template R
 * @param {(work: string) => Promise<R>} call
 */
async function withWork(call) {
  const work = fs.mkdtempSync(path.join(os.tmpdir(), 'judge-'));
  try {
    return await call(work);
  } finally {
    fs.rmSync(work, { recursive: true, force: true });
  }
}

function tell(/** @type {string} */ name, /** @type {object} */ result) {
  console.log(JSON.stringify({ name, ...result }));
}

async function judgePackages(/** @type {string} */ root) {
  for (const dir of packagesBelow(path.resolve(root))) {
    const entry = entryOf(dir);
    if (!entry) continue;
    await withWork(async (work) => {
      try {
        const { folder, count, globals } = copied(dir, entry, work);
        const exports = { '.': `./${entry.replace(/^\.\//, '')}` };
        if (count >= 2) tell(path.relative(path.resolve(root), dir), { entry, globals, ...await judge(folder, exports, work) });
      } catch (error) {
        tell(path.relative(path.resolve(root), dir), { entry, failed: /** @type {Error} */ (error).message });
      }
    });
  }
}

function modulesBelow(/** @type {string} */ root, /** @type {string[]} */ found = []) {
  for (const it of fs.readdirSync(root, { withFileTypes: true })) {
    const file = path.join(root, it.name);
    if (it.isDirectory()) modulesBelow(file, found);
    else if (it.isFile() && /\.[cm]?tsx?$/.test(it.name)) found.push(file);
  }
  return found.sort();
}

async function judgeModules(/** @type {string} */ root) {
  takeLooseTypes();
  for (const file of modulesBelow(root)) {
    await withWork(async (work) => {
      try {
        const folder = path.join(work, 'package');
        const name = path.basename(file);
        writeTexts([[path.join(folder, name), fs.readFileSync(file, 'utf8').replace(/^\ufeff/, '')]]);
        tell(path.relative(root, file), await judge(folder, { '.': `./${name}` }, work));
      } catch (error) {
        tell(path.relative(root, file), { failed: /** @type {Error} */ (error).message });
      }
    });
  }
}

if (require.main === module) {
  const [root, ...words] = process.argv.slice(2);
  if (words.includes('--drop')) dropped.each = Number(words[words.indexOf('--drop') + 1]);
  isDeclaring = words.includes('--dts');
  if (words.includes('--modules')) judgeModules(root);
  else judgePackages(root);
}

module.exports = { copied, entryOf, judge, judgePackages, judgeModules, typed };
