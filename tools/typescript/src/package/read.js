'use strict';
// Reads a package: its entry points, and all modules that they lead to inside of the folder.

const path = require('path');
const { Answers } = require('./answers.js');
const { Files, isInside, readText, mediaTypeOf, isDeclarationFile, isJavaScript } = require('./files.js');
const { packagesOf } = require('./config.js');
const { internalText, isKnown, isTooDeep } = require('../cli/exit.js');
const { writeExports } = require('../tables/ambient.js');
const { hasEffects } = require('../skeleton/effects.js');
const { NO_COMPILER } = require('../compiler/find.js');
const { placeAt } = require('../tree/lines.js');
const { Lookup, RELATIVE, Resolver, SCHEME, packageName } = require('./resolve.js');
const { Projects } = require('./tsconfig.js');

/** @typedef {import('../cli/types').KnownError} KnownError */
/** @typedef {import('./types').ReadOptions} ReadOptions */
/** @typedef {import('./types').MediaType} MediaType */
/** @typedef {import('../tree/types').TreeSource} TreeSource */
/** @typedef {import('./types').Module} Module */
/** @typedef {import('./types').ConfiguredPackage} ConfiguredPackage */

/** The URL of a file: its path below the folder that was named. */
function urlOf(/** @type {string} */ root, /** @type {string} */ file) {
  return `file:///${urlPath(root, file)}`;
}

/** The path of a file below a folder, as a URL writes it. */
function urlPath(/** @type {string} */ folder, /** @type {string} */ file) {
  return path.relative(folder, file).split(path.sep).map(encodeURIComponent).join('/').replace(/%40/g, '@');
}

/**
 * A package that was read, by the keys and the files of its entry points.
 *
 * @param {Omit<ConfiguredPackage, 'exports'>} package
 * @param {[key: string, file: string][]} entries
 * @param {string} root
 * @returns {import('./types').Package}
 */
function withUrls({ imports, dependencies, ...own }, entries, root) {
  return {
    ...own,
    exports: entries.map(([key, file]) => /** @type {[string, string]} */ ([key, `./${urlPath(own.dir, file)}`])),
    entryPoints: entries.map(([, file]) => urlOf(root, file)),
    url: own.dir === root ? 'file:///' : `${urlOf(root, own.dir)}/`,
  };
}

class Reader {
  constructor(/** @type {string} */ dir, /** @type {ReadOptions} */ options) {
    this.root = path.resolve(dir);
    this.options = options;
    this.isQuiet = Boolean(options.isQuiet);
    this.files = new Files(this.root);
    this.answers = new Answers(this.files, options.kept);
    this.projects = new Projects(this.root, this.files);
    this.lookup = new Lookup(this.files, this.projects, this.answers);
    /** @type {import('./types').FileError[]} */
    this.errors = [];
    /** @type {import('./types').FileError[]} */
    this.faults = [];
    /** @type {import('./types').Taken[]} */
    this.taken = [];
    /** @type {string[]} */
    this.waiting = [];
    this.packages = packagesOf(this.root, options, this);
    this.resolver = new Resolver(this.root, this.packages, this.lookup);
    /** @type {Map<string, Module>} */
    this.modules = new Map();
    /** @type {Map<string, import('./types').Script>} */
    this.scripts = new Map();
    /** @type {Map<string, import('./types').PlainFile>} */
    this.jsonModules = new Map();
    /** @type {Set<string>} */
    this.refused = new Set();
    /** @type {import('./types').External[]} */
    this.externals = [];
    /** @type {import('./types').Resolution[]} */
    this.resolutions = [];
    /** @type {import('./types').Missing[]} */
    this.missing = [];
    /** @type {import('./types').Times} */
    this.times = { parse: 0, tree: 0 };
  }

  follow(/** @type {Module} */ module, /** @type {TreeSource} */ source) {
    const { text, offset } = source;
    const file = this.resolver.resolve(module.path, text, source.comment);
    if (file) {
      this.resolutions.push([module.specifier, text, urlOf(this.root, file)]);
      this.waiting.push(file);
    } else if (RELATIVE.test(text)) {
      this.missing.push({ path: module.path, offset, text, isOutside: !this.files.isBelow(path.resolve(path.dirname(module.path), text)) });
    } else {
      const specifier = SCHEME.test(text) ? text : `npm:${text}`;
      this.externals.push({ path: module.path, offset, text, specifier, name: packageName(text), isExplained: this.resolver.isExplained(module.path, text) });
      this.resolutions.push([module.specifier, text, specifier]);
    }
  }

  /**
   * An error that keeps a file from being read, at a place of its text.
   *
   * @param {string} file
   * @param {string} text
   * @param {{ offset: number, message: string, code?: string }} error
   */
  errorAt(file, text, { offset, message, code }) {
    this.errors.push({ path: file, ...placeAt(text, offset), message, code });
  }

  /** What an exception at a file says: of a system call, of a stack that did not suffice, or of a fault of this tool. */
  caught(/** @type {string} */ file, /** @type {KnownError} */ error) {
    if (error.code === NO_COMPILER) throw error;
    if (isKnown(error)) this.errors.push({ path: file, code: 'refused-file', message: error.message });
    else if (isTooDeep(error)) this.errors.push({ path: file, code: 'nested-too-deep', message: 'this is nested deeper than can be read' });
    else this.errors.push({ path: file, code: 'internal-error', message: internalText(error, path.relative(this.root, file)) });
  }

  /**
   * A module's tree, and whether it has effects.
   *
   * @returns {{ tree: import('../tree/types').Tree, hasEffects: boolean, sourceFile?: ts.SourceFile }}
   */
  parsed(/** @type {string} */ file, /** @type {MediaType} */ mediaType, /** @type {string} */ text) {
    const { toTree, parse } = require('../tree/index.js');
    const began = process.hrtime.bigint();
    const sourceFile = parse(file, text);
    const parsed = process.hrtime.bigint();
    const tree = toTree(sourceFile, { short: this.options.short !== false, rules: this.options.rules });
    this.times.parse += Number(parsed - began) / 1e6;
    this.times.tree += Number(process.hrtime.bigint() - parsed) / 1e6;
    for (const it of tree.errors) this.errorAt(file, text, it);
    for (const { offset, length, message } of tree.faults) this.faults.push({ path: file, ...placeAt(text, offset), length, message, code: 'syntax-error' });
    if (tree.program) writeExports(tree.program, isDeclarationFile(mediaType));
    const made = { tree, hasEffects: tree.program !== null && hasEffects(text, tree.program) };
    return this.options.keepSourceFiles ? { ...made, sourceFile } : made;
  }

  readModule(/** @type {string} */ file, /** @type {MediaType} */ mediaType, /** @type {string} */ text) {
    const specifier = urlOf(this.root, file);
    const made = (this.options.kept && this.options.kept.find(mediaType, text)) || this.parsed(file, mediaType, text);
    const module = Object.assign(made, { specifier, path: file, mediaType, text, isDeclaration: isDeclarationFile(mediaType) });
    this.modules.set(specifier, module);
    for (const it of module.tree.sources || []) this.follow(module, it);
    if (this.options.onModule) this.options.onModule(path.relative(this.root, file), this.modules.size);
  }

  /** The text of a file, or the one that is given in its place. */
  textOf(/** @type {string} */ file) {
    const given = this.options.texts && this.options.texts.get(file);
    if (given !== undefined) return { text: given, wrong: -1 };
    return this.options.kept ? this.options.kept.textOf(file, readText) : readText(file);
  }

  readFile(/** @type {string} */ file) {
    const specifier = urlOf(this.root, file);
    if (this.modules.has(specifier) || this.scripts.has(specifier) || this.jsonModules.has(specifier) || this.refused.has(file)) return;
    const refusal = this.files.refusal(file);
    if (refusal) {
      this.refused.add(file);
      this.errors.push({ path: file, code: 'refused-file', message: refusal });
      return;
    }
    const mediaType = mediaTypeOf(file);
    const { text, wrong } = this.textOf(file);
    if (wrong >= 0 && mediaType !== 'Unknown') this.errorAt(file, text, { offset: wrong, message: 'the file is no UTF-8 from here on' });
    if (mediaType === 'Json') this.jsonModules.set(specifier, { specifier, path: file, text });
    else if (isJavaScript(mediaType)) this.scripts.set(specifier, { specifier, path: file, mediaType, text });
    else if (mediaType !== 'Unknown') this.readModule(file, mediaType, text);
  }

  read() {
    const entries = this.packages.flatMap((it) => this.resolver.entriesOf(it).map(([, file]) => file));
    this.waiting = entries.reverse();
    for (let file = this.waiting.pop(); file !== undefined; file = this.waiting.pop()) {
      try {
        this.readFile(file);
      } catch (error) {
        this.refused.add(file);
        this.caught(file, /** @type {KnownError} */ (error));
      }
    }
  }
}

/**
 * Reads the packages of a folder with all modules that their entry points lead to.
 *
 * Options: `name`, `version`, `exports` (a text or a map), `short` (cut away what no rule looks at; it is the default),
 * `keepSourceFiles`, `kept` (what is kept of sources that did not change), `texts` (texts by their paths, in place of those of the files), and
 * `onModule(name, count)`.
 *
 * `errors` are what keeps a package from being read, `faults` what is wrong with one that is read; `caught(file, error)` adds the error of an exception.
 *
 * @returns {import('./types').Found}
 */
function readPackage(/** @type {string} */ dir, /** @type {ReadOptions} */ options = {}) {
  const reader = new Reader(dir, options);
  reader.read();
  reader.answers.keep();
  const packages = reader.packages.map((it) => withUrls(it, reader.resolver.entriesOf(it), reader.root));
  return {
    packages,
    modules: [...reader.modules.values()],
    scripts: [...reader.scripts.values()],
    jsonModules: [...reader.jsonModules.values()],
    externals: reader.externals,
    resolutions: reader.resolutions,
    missing: reader.missing,
    errors: reader.errors,
    faults: reader.faults,
    taken: reader.taken,
    times: reader.times,
    dirOf: (/** @type {string} */ file) => (reader.resolver.packageAt(file) || { dir: null }).dir,
    caught: (/** @type {string} */ file, /** @type {KnownError} */ error) => reader.caught(file, error),
  };
}

/** Where the texts of files of a workspace with these `members` lead inside of it, as `(from, text) -> path`, or null. */
function resolverOf(/** @type {string} */ dir, /** @type {string[]} */ members) {
  const reader = new Reader(dir, { isQuiet: true, members });
  return (/** @type {string} */ from, /** @type {string} */ text) => reader.resolver.resolve(from, text);
}

module.exports = { packageName, readPackage, resolverOf, urlOf, withUrls };
