'use strict';
// The declaration files of all stored packages beside their skeletons, read by TypeScript's compiler in one go.
const fs = require('fs');
const path = require('path');
const { analyse } = require('../../src/program/answer.js');
const { declarationFiles, declarationName } = require('../../src/skeleton/declaration-files.js');
const { judged } = require('../../src/verify/declarations.js');
const { emitted, programOf, resolverOf } = require('../../src/verify/surface.js');
const { Progress } = require('../../src/cli/progress.js');
const { printed } = require('../../src/skeleton/write.js');
const { isFrom } = require('../../src/compiler/typescript.js');

// Packages in which a value has no type by its form, with a source that leads nowhere, and of which an older compiler reads other forms.
const PASSED_OVER = isFrom(5, 9)
  ? /^(dts-untold|dts-shadowed|missing-import|newer-.*|quoted-names|apart-.*|instead-.*|top-level-await)$/
  : /^(dts-untold|dts-shadowed|dts-newer|missing-import|newer-.*|quoted-names|apart-.*|instead-.*|top-level-await)$/;

// Packages whose declaration files are compared with what the compiler declares for the sources, since literals are wider there than in the skeletons.
const AS_SOURCES = /^(dts-.*|verified-members|widened-literals)$/;

/** The package of a folder: its world, its skeletons and its declaration files by their paths, and its entry points. Null where it has no skeletons. */
async function packageOf(/** @type {string} */ dir) {
  const context = { cwd: dir, environment: process.env, progress: new Progress({ write() {} }, false) };
  const world = await analyse(dir, {}, context).catch(() => null);
  if (!world || !world.skeletons.size || world.messages.length) return null;
  const { files, messages } = declarationFiles(world, (file) => file);
  if (messages.length) throw new Error(`${dir}: ${messages[0].message}`);
  const fileOf = (/** @type {string} */ specifier) => /** @type {import('../../src/program/types').SourceFile} */ (world.files.get(specifier));
  const pathOf = (/** @type {string} */ specifier) => fileOf(specifier).path;
  const named = (/** @type {string} */ name, /** @type {string} */ text) => /** @type {[string, string]} */ ([name, text]);
  const data = world.info.jsonModules.map((it) => named(it.path, it.text));
  const isOfSource = AS_SOURCES.test(path.basename(dir));
  const skeletons = new Map([...printed(world).map((it) => named(pathOf(it.specifier), isOfSource ? fileOf(it.specifier).text : it.text)), ...data]);
  const made = new Map([...files.map((it) => named(declarationName(pathOf(it.specifier)), it.text)), ...data]);
  const entries = world.info.entryPoints.filter((it) => world.skeletons.has(it)).map(pathOf);
  return { dir, world, skeletons, made, entries };
}

/** @typedef {NonNullable<Awaited<ReturnType<typeof packageOf>>>} Package */

/** A compiler's program over the texts of several packages, each with its own ways of imports. */
function programOver(/** @type {Package[]} */ packages, /** @type {Map<string, string>} */ texts) {
  const resolvers = packages.map(({ dir, world }) => ({ dir: `${dir}${path.sep}`, resolve: resolverOf(world, texts) }));
  return programOf(texts, (from, text) => resolvers.filter(({ dir }) => from.startsWith(dir))[0].resolve(from, text));
}

/** What differs between skeletons and declaration files of the packages of a folder, and how many modules there are. */
async function declaredBoth(/** @type {string} */ folder) {
  /** @type {Package[]} */
  const some = [];
  for (const name of fs.readdirSync(folder).sort().filter((it) => !PASSED_OVER.test(it))) {
    const made = await packageOf(path.join(folder, name));
    if (made) some.push(made);
  }
  const all = (/** @type {'skeletons' | 'made'} */ field) => new Map(some.flatMap((it) => [...it[field]]));
  const [skeletons, made] = [all('skeletons'), all('made')];
  const skeletonProgram = programOver(some, skeletons);
  const declared = emitted(skeletonProgram, skeletons);
  for (const [name, text] of skeletons) if (name.endsWith('.json')) declared.set(name, text);
  const entries = some.flatMap((it) => it.entries).map(declarationName);
  const { errors, differ } = judged({ made, declared, skeletons, skeletonProgram, entries, programOf: (texts) => programOver(some, texts) });
  return { errors, differ, count: made.size };
}

module.exports = { declaredBoth };
