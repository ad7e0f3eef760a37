#!/usr/bin/env node
'use strict';
// Whether users of skeletons and of declaration files see what users of the sources see, for random packages without errors.
//
//   FAST_CHECK=PROGRAM node fuzz_views.js COUNT [SEED]
//
// Each seed makes a package of one to three modules (.ts, .tsx, .mts, .cts) of forms that declare something: namespaces in several blocks, globals that the module
// has too, accessors in pairs, `typeof` of values, properties of functions, `var` in blocks, overloads under all kinds of keys, values that stay. Where the program
// has no message, TypeScript's compiler may find no error in the skeletons and the declaration files, and has to resolve each of their names as in the declarations
// that it makes of the sources. Names whose literals `check` warns of are passed over in skeletons. Packages are tried many at a time, as members of a workspace.
const fs = require('fs');
const os = require('os');
const path = require('path');
const { analyse } = require('../src/program/answer.js');
const { declarationFiles } = require('../src/skeleton/declaration-files.js');
const { FormWriter } = require('./fuzz_forms.js');
const { declarationName, emitted, errorsIn, programOf, resolverOf } = require('../src/verify/surface.js');
const { Progress } = require('../src/cli/progress.js');
const { printed } = require('../src/skeleton/write.js');
const { differing, viewOf } = require('../src/verify/users-view.js');

/** @typedef {import('../src/program/types').World} World */

const TOGETHER = 25;

function writePackage(/** @type {string} */ folder, /** @type {number} */ seed) {
  const modules = new FormWriter(seed).modules();
  fs.mkdirSync(folder, { recursive: true });
  for (const [name, text] of modules) fs.writeFileSync(path.join(folder, name), text);
  const exported = Object.fromEntries(modules.map(([name], place) => [place ? `./${name}` : '.', `./${name}`]));
  fs.writeFileSync(path.join(folder, 'deno.json'), JSON.stringify({ name: `@test/${path.basename(folder)}`, version: '1.0.0', exports: exported }));
}

/** What is wrong with the packages of a folder that was analysed: `{tried, withMessages, found}`. */
function wrongViews(/** @type {World} */ world, /** @type {(name: string) => string} */ seedOf) {
  const files = [...world.files.values()].filter((it) => world.skeletons.has(it.specifier));
  // What another module of the package shows may stand for one whose literals are wider.
  const folderOf = (/** @type {string} */ specifier) => specifier.slice(0, specifier.lastIndexOf('/'));
  const warned = new Set(world.warnings.filter((it) => it.code === 'widened-literal').map((it) => folderOf(it.specifier || '')));
  const paths = new Map(files.map((it) => [it.specifier, it.path]));
  const pathOf = (/** @type {string} */ specifier) => paths.get(specifier) || specifier;
  const named = (/** @type {string} */ name, /** @type {string} */ text) => /** @type {[string, string]} */ ([name, text]);
  const sources = new Map(files.map((it) => named(it.path, it.text)));
  const skeletons = new Map(printed(world).map((it) => named(pathOf(it.specifier), it.text)));
  const { files: made, messages } = declarationFiles(world, (file) => file);
  const declarations = new Map(made.map((it) => named(declarationName(pathOf(it.specifier)), it.text)));
  const [ofSources, ofSkeletons, ofDeclarations] = [sources, skeletons, declarations].map((it) => programOf(it, resolverOf(world, it)));
  const written = emitted(ofSources, sources);
  const wanted = programOf(written, resolverOf(world, written));
  /** @type {string[]} */
  const found = [];
  const wrongSources = new Set();
  const texts = (/** @type {ts.Program} */ program, /** @type {string} */ name) => new Set(errorsIn(program, name).map((it) => `${it.code} ${it.text}`));
  for (const { path: name, specifier } of files) {
    const known = texts(ofSources, name);
    if (known.size) wrongSources.add(specifier);
    if (known.size || !written.has(declarationName(name))) continue;
    const [source, skeleton] = [sources.get(name) || '', skeletons.get(name) || ''];
    const shown = [source, skeleton, declarations.get(declarationName(name)) || ''];
    const tell = (/** @type {string} */ what) => found.push(`seed ${seedOf(name)}: ${path.basename(name)}: ${what}\n${shown.join('\n----\n')}`);
    // The compiler's declarations have no `var` of a block, though they export it: then the source says what it is.
    const [view, own] = [viewOf(wanted, declarationName(name)), viewOf(ofSources, name)];
    const apart = (/** @type {Map<string, string>} */ other) => differing(view, other).filter(([key]) => own.get(key) !== other.get(key));
    for (const error of texts(ofSkeletons, name)) tell(`the skeleton has the error ${error}`);
    if (!warned.has(folderOf(specifier))) for (const it of apart(viewOf(ofSkeletons, name))) tell(`the skeleton differs: ${it.join('\n  ')}`);
    const file = declarationName(name);
    if (!declarations.has(file)) continue;
    for (const error of texts(ofDeclarations, file)) tell(`the declaration file has the error ${error}`);
    for (const it of apart(viewOf(ofDeclarations, file))) tell(`the declaration file differs: ${it.join('\n  ')}`);
  }
  return { tried: files.length - wrongSources.size, wrongSources: wrongSources.size, untold: messages.length, found };
}

/** Tries packages of so many seeds, reports what is wrong, and counts. */
async function fuzzViews(/** @type {number} */ amount, /** @type {number} */ first, tell = console.log) {
  const counts = { packages: 0, modules: 0, wrongSources: 0, withMessages: 0, untold: 0, failed: 0 };
  const work = fs.mkdtempSync(path.join(os.tmpdir(), 'fast-check-views-'));
  try {
    for (let begin = first; begin < first + amount; begin += TOGETHER) {
      const seeds = Array.from({ length: Math.min(TOGETHER, first + amount - begin) }, (_, place) => begin + place);
      const folder = path.join(work, String(begin));
      for (const seed of seeds) writePackage(path.join(folder, `s${seed}`), seed);
      fs.writeFileSync(path.join(folder, 'deno.json'), JSON.stringify({ workspace: seeds.map((seed) => `./s${seed}`) }));
      const context = { cwd: folder, environment: process.env, progress: new Progress({ write() {} }, false) };
      const world = await analyse(folder, {}, context);
      const { tried, wrongSources, untold, found } = wrongViews(world, (name) => path.basename(path.dirname(name)).slice(1));
      const all = [...world.files.keys()].length;
      counts.packages += seeds.length;
      counts.modules += tried;
      counts.wrongSources += wrongSources;
      counts.withMessages += all - world.skeletons.size;
      counts.untold += untold;
      for (const each of world.broken) found.push(`${each.file}: ${each.message}`);
      counts.failed += found.length;
      found.forEach((it) => tell(it));
      fs.rmSync(folder, { recursive: true, force: true });
    }
  } finally {
    fs.rmSync(work, { recursive: true, force: true });
  }
  return counts;
}

module.exports = { fuzzViews };
if (require.main === module) {
  const [count, seed = '1'] = process.argv.slice(2);
  fuzzViews(Number(count), Number(seed)).then((counts) => {
    console.log(`${count} packages from seed ${seed}: ${JSON.stringify(counts)}`);
    process.exitCode = counts.failed ? 1 : 0;
  });
}
