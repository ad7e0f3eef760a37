'use strict';
// What the tsconfig.json files of a folder say, as the compiler reads them: its options, and which files a build writes for which sources. What lies outside of the
// folder is not read.
const path = require('path');
const { isInside, readJson } = require('./files.js');
const typescript = require('../compiler/typescript.js');

/** @typedef {import('./types').RawConfig} RawConfig */
/** @typedef {import('./files.js').Files} Files */

const NAME = 'tsconfig.json';
/** @type {ts.CompilerOptions} */
const NOTHING = {};
const CONFIG_DIR = '${configDir}';

/** @type {(value: unknown) => value is Record<string, unknown>} */
const isMap = (value) => value !== null && typeof value === 'object' && !Array.isArray(value);
/** @type {(value: unknown) => value is string} */
const isText = (value) => typeof value === 'string';

/**
 * Paths of options in which an older compiler leaves `${configDir}`, the folder of the outermost configuration.
 *
 * @template T
 * @param {T} value
 * @param {string} folder
 * @returns {T}
 */
function withFolder(value, folder) {
  /** @type {(value: unknown) => unknown} */
  const replaced = (it) => {
    if (isText(it)) return it.includes(CONFIG_DIR) ? path.join(folder, it.slice(it.indexOf(CONFIG_DIR) + CONFIG_DIR.length)) : it;
    if (Array.isArray(it)) return it.map(replaced);
    return isMap(it) ? Object.fromEntries(Object.entries(it).map(([key, each]) => [key, replaced(each)])) : it;
  };
  return /** @type {T} */ (replaced(value));
}

/** The innermost folder that some files lie in; undefined of no files. */
function commonFolder(/** @type {string[]} */ files) {
  const folders = files.map((file) => path.dirname(file).split('/'));
  const shared = (/** @type {string[]} */ one, /** @type {string[]} */ other) => one.slice(0, one.findIndex((part, at) => part !== other[at]) >>> 0);
  return folders.length ? folders.reduce(shared).join('/') || '/' : undefined;
}

class Projects {
  /** `files` looks files up, and says which may be read; `root` is the last folder in which a configuration is looked for. */
  constructor(/** @type {string} */ root, /** @type {Files} */ files) {
    this.root = root;
    this.files = files;
    /** @type {Map<string, ts.CompilerOptions>} */
    this.ofFile = new Map();
    /** @type {Map<string, ts.CompilerOptions>} */
    this.ofFolder = new Map();
  }

  /**
   * The compiler's view of configurations; with `lists`, of the sources that one takes too.
   *
   * @returns {ts.ParseConfigHost}
   */
  host(/** @type {boolean} */ lists) {
    const { files } = this;
    return {
      useCaseSensitiveFileNames: true,
      fileExists: (file) => files.isReadable(file),
      readFile: (file) => (files.isReadable(file) ? files.text(file).text : undefined),
      readDirectory: (folder, endings, excludes, includes, depth) => (lists ? files.matching(folder, { endings, excludes, includes, depth }) : []),
    };
  }

  /**
   * The object in a tsconfig file, or null where it is not there, is refused, or is no object.
   *
   * @returns {RawConfig | null}
   */
  object(/** @type {string} */ file) {
    if (!this.files.isReadable(file)) return null;
    const { config } = readJson(file, this.files.text(file).text);
    return isMap(config) ? config : null;
  }

  /** The files that a tsconfig object extends, the last of which counts most. */
  extended(/** @type {RawConfig} */ { extends: written }, /** @type {string} */ file) {
    return [written].flat().filter(isText).flatMap((text) => {
      const isPath = /^\.{1,2}(\/|$)/.test(text) || path.isAbsolute(text);
      const wanted = isPath ? path.resolve(path.dirname(file), text) : path.join(this.root, 'node_modules', text);
      return [wanted, `${wanted}.json`, path.join(wanted, NAME)].find((it) => this.files.isReadable(it)) || [];
    });
  }

  /**
   * Whether a tsconfig object, or one that it extends, extends several files.
   *
   * @returns {boolean}
   */
  extendsLists(/** @type {RawConfig | null} */ object, /** @type {string} */ file, seen = new Set()) {
    if (!object || seen.has(file)) return false;
    seen.add(file);
    return Array.isArray(object.extends) || this.extended(object, file).some((each) => this.extendsLists(this.object(each), each, seen));
  }

  /**
   * An object of a tsconfig file as the compiler reads it. To one before 5.0, which extends one file alone, several are given one by one.
   *
   * @returns {ts.ParsedCommandLine}
   */
  parsed(/** @type {RawConfig} */ object, /** @type {string} */ file, /** @type {boolean} */ lists) {
    const { ts } = typescript;
    const parse = (/** @type {RawConfig} */ each) => ts.parseJsonConfigFileContent(each, this.host(lists), path.dirname(file), undefined, file);
    if (typescript.isFrom(5, 0) || !this.extendsLists(object, file)) return parse(object);
    const above = this.extended(object, file).map((each) => this.config(each));
    const own = parse({ ...object, extends: undefined });
    return { ...own, options: Object.assign({}, ...above, own.options) };
  }

  /** The options of a tsconfig file. */
  config(/** @type {string} */ file) {
    const known = this.ofFile.get(file);
    if (known) return known;
    // Of files that extend each other in a circle the first counts for nothing.
    this.ofFile.set(file, NOTHING);
    const object = this.object(file);
    const options = object ? this.parsed(object, file, false).options : NOTHING;
    this.ofFile.set(file, options);
    return options;
  }

  /** The files of the projects that a tsconfig file refers to. */
  references(/** @type {string} */ file) {
    const object = this.object(file);
    const all = (object && Array.isArray(object.references) && object.references) || [];
    return all.map((each) => isMap(each) && each.path).filter(isText).map((each) => {
      const wanted = path.resolve(path.dirname(file), each);
      return wanted.endsWith('.json') ? wanted : path.join(wanted, NAME);
    });
  }

  /** The options of a project: those of its own file, else, where it has no aliases, of the first project that it refers to and that has some. */
  project(/** @type {string} */ file) {
    const hasAliases = (/** @type {ts.CompilerOptions} */ { paths, baseUrl }) => paths || baseUrl;
    const own = this.config(file);
    return hasAliases(own) ? own : this.references(file).map((each) => this.config(each)).find(hasAliases) || own;
  }

  /**
   * The options of the nearest tsconfig.json in a folder or above it.
   *
   * @returns {ts.CompilerOptions}
   */
  nearest(/** @type {string} */ folder) {
    const known = this.ofFolder.get(folder);
    if (known) return known;
    const file = path.join(folder, NAME);
    const isTop = folder === this.root || path.dirname(folder) === folder;
    const found = this.files.isFile(file) ? withFolder(this.project(file), folder) : isTop ? NOTHING : this.nearest(path.dirname(folder));
    this.ofFolder.set(folder, found);
    return found;
  }

  /** The tsconfig files by which a folder may be built: its own, those for builds beside it, those of its `src`, and the projects that they refer to. */
  buildFiles(/** @type {string} */ dir) {
    const below = (/** @type {string} */ folder) => {
      const others = this.files.names(folder).map(({ name }) => name).filter((name) => /^tsconfig\..+\.json$/.test(name));
      return [NAME, ...others].map((name) => path.join(folder, name)).filter((file) => this.files.isReadable(file));
    };
    const own = [...below(dir), ...below(path.join(dir, 'src'))];
    return [...new Set([...own, ...own.flatMap((file) => this.references(file)).filter((file) => this.files.isReadable(file))])];
  }

  /**
   * The files that the compiler writes for the sources of a folder, with these: `[written, source]`.
   *
   * @returns {[string, string][]}
   */
  builtFiles(/** @type {string} */ dir) {
    return this.buildFiles(dir).reverse().flatMap((file) => this.written(file));
  }

  /**
   * What the compiler writes by a tsconfig file: `[written, source]`.
   *
   * @returns {[string, string][]}
   */
  written(/** @type {string} */ file) {
    const folder = path.dirname(file);
    const { options: parsed, fileNames } = this.parsed(this.object(file) || {}, file, true);
    const options = withFolder(parsed, folder);
    if (!options.outDir && !options.declarationDir) return [];
    const sources = fileNames.filter((name) => !/\.d\.[cm]?ts$|\.json$/.test(name));
    // Without `rootDir` compilers before 6.0 begin at the folder that all sources have in common, and later ones at that of the configuration, as `composite` does.
    // Each is named, since the compiler would look for it anew for each source.
    const own = typescript.isFrom(6, 0) || options.composite ? [folder] : [];
    const roots = options.rootDir ? [options.rootDir] : [commonFolder(sources), ...own];
    const written = (/** @type {string} */ source, /** @type {string | undefined} */ rootDir) => {
      const asked = { options: { ...options, rootDir, declaration: true, noEmit: false }, fileNames: [source], errors: [] };
      return typescript.whole.getOutputFileNames(asked, source, false).map((each) => /** @type {[string, string]} */ ([path.resolve(each), source]));
    };
    return roots.flatMap((root) => sources.flatMap((source) => written(source, root))).filter(([each, source]) => each !== source && this.files.isBelow(each));
  }
}

module.exports = { Projects };
