'use strict';
// How the files of a folder name what other modules export: by a path inside of the same package, else by the name of a package that its users have too.
const { builtinModules } = require('module');
const path = require('path');
const { isInside } = require('../package/files.js');
const { RELATIVE } = require('../package/resolve.js');
const { whole: ts } = require('../compiler/typescript.js');

/** @typedef {import('../program/types').World} World */

const ENDING = /(\.d)?\.([cm]?)[jt]sx?$/;

/** How sources of a folder name others, in `import(..)` too: with which ending, by what most of them have. */
function endingOf(/** @type {World} */ world, /** @type {ts.Program} */ program) {
  /** @type {Record<string, number>} */
  const counts = { '.ts': 0, '.js': 0, '': 0 };
  for (const { tree, path: file } of world.info.modules) {
    const source = program.getSourceFile(file);
    for (const { text } of (source && source.imports) || tree.sources || []) if (RELATIVE.test(text)) counts[/\.[cm]?tsx?$/.test(text) ? '.ts' : /\.[cm]?jsx?$/.test(text) ? '.js' : ''] += 1;
  }
  return Object.keys(counts).sort((a, b) => counts[b] - counts[a])[0];
}

/** How a file names a module of its package. */
function relativeSource(/** @type {string} */ from, /** @type {string} */ to, /** @type {string} */ ending) {
  const relative = path.relative(path.dirname(from), to).split(path.sep).join('/');
  const shown = relative.startsWith('.') ? relative : `./${relative}`;
  if (ending === '.ts') return shown;
  return shown.replace(/(\.d)?\.([cm]?)tsx?$/, ending === '.js' ? '.$2js' : '').replace(/\/index$/, ending === '' ? '' : '/index');
}

/** The names of modules in a folder's files, over a program of the compiler. `resolve(text, from)` is where a text of a file leads, `lookup` asks for files. */
class Naming {
  constructor(/** @type {World} */ world, /** @type {ts.Program} */ program, /** @type {(text: string, from: string) => ts.ResolvedModule | undefined} */ resolve, /** @type {import('../package/resolve.js').Lookup} */ lookup) {
    this.world = world;
    this.program = program;
    this.resolve = resolve;
    this.checker = program.getTypeChecker();
    this.ending = endingOf(world, program);
    this.lookup = lookup;
    const own = program.getSourceFiles().map((it) => it.fileName).filter((it) => isInside(world.dir, it) && !it.includes('/node_modules/'));
    this.known = new Set([...own, ...[...world.files.values()].map((it) => it.path)]);
    this.byStem = new Map(program.getSourceFiles().map((it) => [it.fileName.replace(ENDING, ''), it]));
    /** @type {Map<ts.SourceFile, Map<ts.Symbol, string>>} */
    this.exported = new Map();
    /** @type {Map<import('../package/types').Package | undefined, { texts: Set<string>, found: { text: string, file: ts.SourceFile }[] }>} */
    this.packages = new Map();
    this.hasScheme = world.info.externals.some((it) => it.text.startsWith('node:'));
  }

  /** The package of the folder that a file lies in. */
  packageAt(/** @type {string} */ file) {
    const around = this.world.info.packages.filter(({ dir }) => file.startsWith(`${dir}${path.sep}`));
    return around.sort((a, b) => b.dir.length - a.dir.length)[0];
  }

  /** What a symbol stands for behind imports and exports. */
  behind(/** @type {ts.Symbol} */ symbol) {
    return symbol.flags & ts.SymbolFlags.Alias ? this.checker.getAliasedSymbol(symbol) : symbol;
  }

  /** The names under which a module exports something, by what they stand for. */
  exportsOf(/** @type {ts.SourceFile} */ file) {
    const known = this.exported.get(file);
    if (known) return known;
    const symbol = this.checker.getSymbolAtLocation(file);
    /** @type {Map<ts.Symbol, string>} */
    const names = new Map();
    for (const it of symbol ? this.checker.getExportsOfModule(symbol) : []) {
      const target = this.behind(it);
      if (!names.has(target) || it.name === target.name) names.set(target, it.name);
    }
    this.exported.set(file, names);
    return names;
  }

  /** The packages that a file may name, each with the module that it leads to: those that its package asks for, and those that it needs. */
  packagesFor(/** @type {string} */ from) {
    const own = this.packageAt(from);
    const before = this.packages.get(own);
    if (before) return before;
    const modules = this.world.info.modules.filter((it) => this.packageAt(it.path) === own);
    const asked = modules.flatMap((it) => it.tree.sources || []).map((it) => it.text).filter((text) => !RELATIVE.test(text));
    const known = [...new Set([...asked, ...(own ? own.needed : [])])];
    // A package whose elements are written may be asked for their types.
    const texts = [...known, ...known.map((it) => `${it}/jsx-runtime`).filter((it) => this.byRuntime(it, from))];
    const found = texts.flatMap((text) => {
      const file = this.moduleOf(text, from);
      return file ? { text, file } : [];
    });
    const made = { texts: new Set(texts), found };
    this.packages.set(own, made);
    return made;
  }

  /** Whether the compiler takes the types of elements from a module. */
  byRuntime(/** @type {string} */ text, /** @type {string} */ from) {
    const source = this.program.getCompilerOptions().jsxImportSource || 'react';
    return text === `${source}/jsx-runtime` && Boolean(this.moduleOf(text, from));
  }

  moduleOf(/** @type {string} */ text, /** @type {string} */ from) {
    const found = this.resolve(text, from);
    return found && this.program.getSourceFile(found.resolvedFileName);
  }

  /** The file of the folder's own package, or of another one, that the compiler names by its path. */
  fileAt(/** @type {string} */ text, /** @type {string} */ from) {
    const wanted = path.resolve(path.dirname(from), text);
    const own = this.lookup.at(from, text);
    return own && this.known.has(own) ? this.program.getSourceFile(own) : this.byStem.get(wanted) || this.byStem.get(wanted.replace(ENDING, ''));
  }

  /** How a file names a module that is declared by its name. */
  ambient(/** @type {string} */ text, /** @type {string} */ from) {
    const plain = text.replace(/^node:/, '');
    if (builtinModules.includes(plain)) return this.hasScheme ? `node:${plain}` : text;
    return this.packagesFor(from).texts.has(text) ? text : null;
  }

  /**
   * How a file names what the compiler calls `name` of the module `text`, or that module itself where there is no name: `{source, name}`, or null where it
   * cannot.
   *
   * @returns {import('./types').Imported | null}
   */
  find(/** @type {string} */ from, /** @type {string} */ text, /** @type {string | null} */ name) {
    if (!RELATIVE.test(text) && !path.isAbsolute(text)) {
      const source = this.ambient(text, from);
      return source ? { source, name } : null;
    }
    const file = this.fileAt(text, from);
    if (!file) return null;
    const own = this.packageAt(from);
    if (this.known.has(file.fileName) && this.packageAt(file.fileName) === own) return { source: relativeSource(from, file.fileName, this.ending), name };
    const { found } = this.packagesFor(from);
    const itself = found.find((it) => it.file === file);
    if (itself || name === null) return itself ? { source: itself.text, name } : null;
    const [target] = [...this.exportsOf(file)].find(([, exported]) => exported === name) || [];
    const through = target && found.find((it) => this.exportsOf(it.file).has(target));
    return through && target ? { source: through.text, name: this.exportsOf(through.file).get(target) || null } : null;
  }
}

module.exports = { Naming };
