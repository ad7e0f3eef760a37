'use strict';
// The input of `fast-check build` for a folder (docs/FORMATS.md), and what messages need of it.

const { placeAt } = require('../tree/lines.js');
const { readPackage } = require('../package/read.js');
const { JsonText, withModules } = require('./request.js');
const { isMarked } = require('../skeleton/restored.js');
const { namesReturns } = require('../tables/asserted-types.js');
const { ownTables, jsonTables, tablesOf, World } = require('../tables/symbols.js');

/** @typedef {import('../package/types').ReadOptions} ReadOptions */
/** @typedef {import('../package/types').Found} Found */
/** @typedef {import('../package/types').Script} Script */
/** @typedef {import('../package/types').Module} Module */

// The levels of JSON that the program reads.
const MOST_LEVELS = 127;
// The levels around the program of a module: the request, its list, its pair, its choice, itself and its source.
const AROUND = 7;

function elapsed(/** @type {bigint} */ since) {
  return Number(process.hrtime.bigint() - since) / 1e6;
}

/**
 * The place of the innermost node around the first value that is nested too deep for the program, in the tree of a module; null where none is.
 *
 * @returns {forms.Span | null}
 */
function tooDeep(/** @type {forms.Part} */ program) {
  /** @type {forms.Span | null} */
  let span = null;
  /** @type {(at: forms.Part, depth: number, around: forms.Span | null) => boolean} */
  const walk = (at, depth, around) => {
    if (depth > MOST_LEVELS) {
      span = around;
      return true;
    }
    const here = Array.isArray(at.span) && at.span[0] > 0 ? at.span : around;
    // A place is a level too.
    const parts = /** @type {(forms.Part | null)[]} */ (Object.values(at));
    return parts.some((each) => each !== null && typeof each === 'object' && walk(each, depth + 1, here));
  };
  return walk(program, AROUND, null) ? span || [1, 1] : null;
}

/** The error of a module that is nested too deep for the program. */
function deepError(/** @type {Module} */ module, /** @type {forms.Span} */ span) {
  const place = placeAt(module.text, module.tree.offsets.offsetOf(span[0]));
  const hint = 'give a part of it a name of its own';
  return { path: module.path, ...place, length: 1, code: 'nested-too-deep', message: 'this is nested deeper than the program reads', hint };
}

/**
 * What is found of the packages that can be read: without the others, and without what leads to a module that cannot be read.
 *
 * @returns {Found}
 */
function readable(/** @type {Found} */ found) {
  if (!found.errors.length) return found;
  const broken = new Set(found.errors.map((it) => found.dirOf(it.path)));
  const wrong = new Set(found.errors.map((it) => it.path));
  const modules = found.modules.filter((it) => !wrong.has(it.path) && it.tree.program);
  const there = new Set([...modules, ...found.scripts, ...found.jsonModules].map((it) => it.specifier));
  const resolutions = found.resolutions.filter(([, , to]) => there.has(to) || !to.startsWith('file:'));
  // An error that lies in none of the packages is one of all.
  const packages = broken.has(null) ? [] : found.packages.filter((it) => !broken.has(it.dir));
  return { ...found, modules, resolutions, packages };
}

/**
 * Makes what the program is handed of a module: its source as JSON, without the text, which no rule looks at, and its tables. One that the program does not read
 * is an error.
 */
function complete(/** @type {Module} */ module, /** @type {Found} */ found, /** @type {ReadOptions} */ { kept }) {
  const { program, comments, unresolvedContext } = module.tree;
  const span = program && tooDeep(program);
  const tables = ownTables(module);
  const source = JSON.stringify({ media_type: module.mediaType, text: '', program, comments, unresolved_context: unresolvedContext });
  const { hasEffects, tree: { sources } } = module;
  module.parts = { source, sources, tables, hasEffects, marks: { namesReturns: namesReturns(source), isMarked: isMarked(source) } };
  if (span) found.errors.push(deepError(module, span));
  else if (kept && !module.tree.faults.length) kept.put(module);
}

/** The tables of all modules that have some. A module whose tables cannot be made, or that the program does not read, is an error. */
function tablesOfAll(/** @type {Found} */ found, /** @type {ReadOptions} */ options) {
  const targets = new Map(found.resolutions.map(([from, text, to]) => [`${from}\n${text}`, to]));
  const world = new World((from, text) => targets.get(`${from}\n${text}`));
  for (const it of found.modules) {
    try {
      if (!it.parts) complete(it, found, options);
      if (it.parts) world.add(it.specifier, it.parts);
    } catch (error) {
      found.caught(it.path, error);
    }
  }
  for (const it of found.jsonModules) world.add(it.specifier, { tables: jsonTables(Buffer.byteLength(it.text)) });
  return world;
}

/** @returns {import('./types').RequestModule} */
function moduleInput(/** @type {Module} */ module, /** @type {World} */ world) {
  return [module.specifier, { Esm: { specifier: module.specifier, source: new JsonText(/** @type {import('../package/types').Parts} */ (module.parts).source), ...tablesOf(module, world) } }];
}

/** @returns {import('./types').RequestModule} */
function jsonInput(/** @type {string} */ specifier, /** @type {World} */ world) {
  return [specifier, { Json: { specifier, .../** @type {import('../tables/types').OwnTables} */ (world.tablesOf(specifier)) } }];
}

function graphOf(/** @type {Found} */ found) {
  const js = (/** @type {Script} */ it) => /** @type {import('./types').Graph['modules'][0]} */ ([it.specifier, { Js: { media_type: it.mediaType } }]);
  return {
    modules: [
      ...found.modules.map(js),
      ...found.scripts.map(js),
      ...found.jsonModules.map((it) => /** @type {[string, { Json: {} }]} */ ([it.specifier, { Json: {} }])),
      ...[...new Set(found.externals.map((it) => it.specifier))].filter((it) => /^[a-z]+:\S+$/.test(it)).map((it) => /** @type {[string, 'External']} */ ([it, 'External'])),
    ],
    resolutions: found.resolutions,
    packages: [],
  };
}

/** @returns {import('./types').Request} */
function requestOf(/** @type {Found} */ found, /** @type {World} */ world) {
  const packages = [...found.packages].sort((a, b) => b.url.length - a.url.length);
  const modules = () => [...found.modules.map((it) => moduleInput(it, world)), ...found.jsonModules.map((it) => jsonInput(it.specifier, world))];
  const others = {
    graph: graphOf(found),
    aliases: [],
    workspace_members: packages.map((it) => ({ name: it.name, version: it.version, base: it.url, exports: it.exports })),
    provider: { packages: [], fallback: 'https://package.test/' },
    pending: found.packages.map((it) => `${it.name}@${it.version}`),
    first: false,
  };
  return withModules(others, modules);
}

/** The request of what can be read, or null where that is no package. Making the tables may find further errors. */
function readableRequest(/** @type {Found} */ found, /** @type {ReadOptions} */ options) {
  const world = tablesOfAll(readable(found), options);
  const now = readable(found);
  return now.packages.length ? requestOf(now, world) : null;
}

/**
 * The input of `fast-check build` for the packages of a folder.
 *
 * `request` is the JSON of the packages that can be read, null where none can: `info.errors` says what keeps the others from it, and `info.faults` what is
 * wrong with those that are read. `info` has beside them the packages, the modules with their paths and texts, the entry points, and where the time went.
 *
 * @returns {{ request: import('./types').Request | null, info: import('./types').Info }}
 */
function inputOf(/** @type {string} */ dir, /** @type {ReadOptions} */ options = {}) {
  const found = readPackage(dir, options);
  const began = process.hrtime.bigint();
  const request = readableRequest(found, options);
  const { packages } = readable(found);
  const { modules, scripts, jsonModules, externals, missing, errors, faults, taken, times } = found;
  times.tables = elapsed(began);
  const entryPoints = packages.flatMap((it) => it.entryPoints);
  return { request, info: { packages, entryPoints, modules, scripts, jsonModules, externals, missing, errors, faults, taken, times } };
}

module.exports = { inputOf, tooDeep };
