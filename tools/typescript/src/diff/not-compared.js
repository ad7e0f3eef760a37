'use strict';
// What two versions of a package show to their users beside the skeletons: types of other packages, additions to the types of others, JSON, modules that are
// not there.
const { packageName } = require('../package/read.js');
const { Names, mentioned, resolver } = require('../skeleton/modules.js');

/** @typedef {import('../program/types').World} World */
/** @typedef {import('../package/types').PlainFile} PlainFile */
/** @typedef {import('../package/types').Module} Module */

/** The texts of imports that the skeletons of a folder have, each with the module that it stands in. */
function sourcesOf(/** @type {World} */ world) {
  return [...world.skeletons].flatMap(([specifier, { program }]) => {
    const names = new Names(program);
    const imported = [...names.imported.values()].map(([text]) => text);
    const texts = [...imported, ...names.reexported.map(([, text]) => text), ...names.all, ...mentioned(program).imports.map(([text]) => text)];
    return [...new Set(texts)].map((text) => ({ specifier, text }));
  });
}

/** The name of a module's file. */
const fileOf = (/** @type {World} */ world, /** @type {string} */ specifier) => (world.files.get(specifier) || { name: specifier.replace(/^file:\/\/\//, '') }).name;

/** The innermost package around a module. */
function packageAround(/** @type {World} */ world, /** @type {string} */ specifier) {
  return world.info.packages.filter(({ url }) => specifier.startsWith(url)).sort((a, b) => b.url.length - a.url.length)[0] || { ranges: {} };
}

const REFERENCE = /^\s*\/\/\/\s*<reference\s+(types|path|lib)\s*=\s*["']([^"']+)["']/gm;

/** The comments `/// <reference>` of the public modules: `[module, kind, what they name]`. */
function referencesOf(/** @type {World} */ world) {
  return [...world.skeletons.keys()].flatMap((specifier) => {
    const { text } = world.files.get(specifier) || { text: '' };
    return [...text.matchAll(REFERENCE)].map(([, kind, name]) => [specifier, kind, name]);
  });
}

/** The packages outside of a folder that its skeletons mention, each with the range of versions that the folder takes. */
function rangesOf(/** @type {World} */ world) {
  const isInside = resolver(world);
  const outside = sourcesOf(world).filter(({ specifier, text }) => !/^\.{0,2}\//.test(text) && !String(isInside(specifier, text)).startsWith('file:'));
  const referred = referencesOf(world).filter(([, kind]) => kind === 'types').map(([specifier, , name]) => ({ specifier, text: name }));
  const ranges = new Map();
  for (const { specifier, text } of [...outside, ...referred]) {
    if (/^(?:node|https?|data|file):/.test(text)) continue;
    const [, scheme, named] = /^(npm:|jsr:)?\/?((?:@[^/]+\/)?[^/]+)/.exec(text) || ['', '', ''];
    const { ranges: known } = packageAround(world, specifier);
    const name = packageName(scheme ? named : text);
    const plain = name.replace(/(.)@.*/s, '$1');
    const typed = `@types/${plain.replace(/^@([^/]+)\//, '$1__')}`;
    const found = [scheme ? named.slice(plain.length + 1) : undefined, known[name], known[typed]].filter(Boolean);
    ranges.set(plain, [...new Set([...(ranges.get(plain) || []), ...found])]);
  }
  return ranges;
}

const asRange = (/** @type {string[]} */ list) => (list.length ? list.join(' and ') : 'no range');

function rangeReasons(/** @type {World} */ before, /** @type {World} */ after) {
  const [old, now] = [before, after].map(rangesOf);
  const differing = [...old].filter(([name, list]) => now.has(name) && asRange(list) !== asRange(now.get(name)));
  return differing.map(([name, list]) => `${name} is taken as ${asRange(now.get(name))}, and was taken as ${asRange(list)}`);
}

/** Whether a module declares something outside of itself: a script, or a module that adds to another one or to what is global. */
function addsElsewhere(/** @type {Module} */ { tree }) {
  const { Script, Module } = /** @type {forms.Program} */ (tree.program);
  const isAddition = (/** @type {forms.ModuleItem} */ item) => {
    const exported = item.ModuleDecl && item.ModuleDecl.ExportDecl;
    const decl = exported ? exported.decl : item.Stmt && item.Stmt.Decl;
    return Boolean(decl && decl.TsModule && (decl.TsModule.global || decl.TsModule.id.Str));
  };
  return Script ? (Script.body || []).length > 0 : (Module.body || []).some(isAddition);
}

/** The texts of some modules by their names. */
const textsOf = (/** @type {World} */ world, /** @type {PlainFile[]} */ modules) => new Map(modules.map((it) => [fileOf(world, it.specifier), it.text]));

/** The names of texts that differ, or that only one has. */
function differing(/** @type {Map<string, unknown>} */ old, /** @type {Map<string, unknown>} */ now) {
  return [...new Set([...old.keys(), ...now.keys()])].filter((name) => old.get(name) !== now.get(name)).sort();
}

function additionReasons(/** @type {World} */ before, /** @type {World} */ after) {
  const [old, now] = [before, after].map((world) => textsOf(world, world.info.modules));
  const others = new Set(differing(old, now));
  const adding = (/** @type {World} */ world) => world.info.modules.filter((it) => others.has(fileOf(world, it.specifier)) && addsElsewhere(it)).map((it) => fileOf(world, it.specifier));
  const names = new Set([before, after].flatMap(adding));
  return [...names].sort().map((name) => `${name} differs, which declares what is global or belongs to other modules`);
}

function referenceReasons(/** @type {World} */ before, /** @type {World} */ after) {
  const shown = (/** @type {World} */ world) => new Map(referencesOf(world).map(([specifier, kind, name]) => [`${fileOf(world, specifier)} refers to ${kind} "${name}"`, true]));
  const [old, now] = [before, after].map(shown);
  return differing(old, now).map((text) => `${text} ${now.has(text) ? 'now' : 'no more'}`);
}

function jsonReasons(/** @type {World} */ before, /** @type {World} */ after) {
  const shown = (/** @type {World} */ world) => {
    const resolve = resolver(world);
    const targets = new Set(sourcesOf(world).map(({ specifier, text }) => resolve(specifier, text)));
    return textsOf(world, world.info.jsonModules.filter((it) => targets.has(it.specifier)));
  };
  return differing(shown(before), shown(after)).map((name) => `${name} differs, whose values are public`);
}

/** The modules that skeletons mention and that are not there: what stands behind them is not known in either version. */
function missingReasons(/** @type {World} */ before, /** @type {World} */ after) {
  const shown = (/** @type {World} */ world) => {
    const texts = new Set(sourcesOf(world).map(({ specifier, text }) => `${fileOf(world, specifier)}\n${text}`));
    const names = new Map([...world.files.values()].map((it) => [it.path, it.name]));
    return world.info.missing.map(({ path: file, text }) => `${names.get(file)}\n${text}`).filter((it) => texts.has(it));
  };
  return [...new Set([before, after].flatMap(shown))].map((it) => it.split('\n')).map(([name, text]) => `${name} needs ${text}, which is not there`);
}

/** The entry points of JavaScript without types, of which no name is known in either version. */
function javascriptReasons(/** @type {World} */ before, /** @type {World} */ after) {
  const shown = (/** @type {World} */ world) => world.messages.filter(({ code }) => code === 'unsupported-javascript-entrypoint').map(({ specifier = '' }) => fileOf(world, specifier));
  return [...new Set([before, after].flatMap(shown))].map((name) => `the entry point ${name} is JavaScript without types`);
}

/** Why two versions with the same skeletons may show other types to their users. */
function hiddenDifferences(/** @type {World} */ before, /** @type {World} */ after) {
  return [rangeReasons, additionReasons, referenceReasons, jsonReasons, missingReasons, javascriptReasons].flatMap((reasons) => reasons(before, after));
}

/** The packages whose types the skeletons of a folder mention. */
function packagesMentioned(/** @type {World} */ world) {
  return [...rangesOf(world).keys()].sort();
}

module.exports = { hiddenDifferences, packagesMentioned };
