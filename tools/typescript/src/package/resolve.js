'use strict';
// Where texts lead inside of a folder: by a comment, by maps of imports, by names of packages, and else as TypeScript's compiler finds it.
const { builtinModules } = require('module');
const path = require('path');
const { Answers } = require('./answers.js');
const { asked, resolvedModule } = require('../compiler/resolve.js');
const { Files, isInside, isJavaScript, mediaTypeOf, namedTypes, selfTypes } = require('./files.js');
const { Projects } = require('./tsconfig.js');

/** @typedef {import('./types').ConfiguredPackage} ConfiguredPackage */

const RELATIVE = /^\.{1,2}(\/|$)/;
const SCHEME = /^[a-z][a-z0-9+.-]*:/i;
/** @type {Pick<ConfiguredPackage, 'imports' | 'dependencies'>} */
const NO_PACKAGE = { imports: {}, dependencies: new Set() };

/** The name of the package that a source text begins with, as `@scope/name` or `npm:name`; of `@/x` and `#x/y` the part before the stroke. */
function packageName(/** @type {string} */ text) {
  const [, scheme, rest] = /** @type {RegExpExecArray} */ (/^((?:npm|jsr):\/?|)(.*)$/s.exec(text));
  if (!scheme && SCHEME.test(text)) return text;
  const [first, second] = rest.split('/');
  const name = first.length > 1 && first.startsWith('@') && second ? `${first}/${second}` : first;
  return scheme.replace('/', '') + (scheme ? name.replace(/(.)@.*/s, '$1') : name);
}

/**
 * What a pattern with at most one `*` leaves of a text, or null where it does not fit.
 *
 * @returns {string | null}
 */
function fits(/** @type {string} */ pattern, /** @type {string} */ text) {
  const [before, after] = pattern.split('*');
  if (after === undefined) return pattern === text ? '' : null;
  const isLong = text.length >= before.length + after.length;
  return isLong && text.startsWith(before) && text.endsWith(after) ? text.slice(before.length, text.length - after.length) : null;
}

/** The key of a map that fits a text best: the text itself, else the one with the longest part before its `*`; and what the `*` stands for. */
function bestKey(/** @type {object} */ map, /** @type {string} */ text) {
  const fitting = Object.keys(map).flatMap((key) => {
    const rest = fits(key, text);
    return rest === null ? [] : { key, rest };
  });
  const length = (/** @type {{ key: string }} */ { key }) => (key.includes('*') ? key.indexOf('*') : Infinity);
  return fitting.sort((a, b) => length(b) - length(a))[0] || null;
}

/** Asks the compiler for modules. It sees what lies in the folder, and nothing in a `node_modules` there. */
class Lookup {
  constructor(/** @type {Files} */ files, /** @type {Projects} */ projects, /** @type {Answers} */ answers) {
    this.files = files;
    this.projects = projects;
    this.answers = answers;
    /** @type {ts.ModuleResolutionHost & { useCaseSensitiveFileNames: boolean }} */
    this.host = {
      useCaseSensitiveFileNames: true,
      getCurrentDirectory: () => files.root,
      fileExists: (file) => isInside(files.root, file) && files.isFile(file),
      directoryExists: (written) => {
        const folder = path.resolve(written);
        if (path.basename(folder) === 'node_modules') return false;
        // Where the folders above were not there, the compiler would not look at the folder itself for "..".
        return files.isBelow(folder) ? files.kind(folder) === 'folder' : isInside(folder, files.root);
      },
      readFile: (file) => (files.isReadable(file) ? files.text(file).text : undefined),
    };
  }

  /** That of a folder of which nothing is known. */
  static of(/** @type {string} */ root) {
    const files = new Files(root);
    return new Lookup(files, new Projects(root, files), new Answers(files, null));
  }

  /**
   * The file of the folder that a text in a file leads to, or null.
   *
   * @returns {string | null}
   */
  at(/** @type {string} */ from, /** @type {string} */ text) {
    return this.answers.of(`module ${path.dirname(from)}\n${text}`, () => this.asked(from, text));
  }

  /** The same, asked anew. A file of which the compiler knows no kind is found by its whole name. */
  asked(/** @type {string} */ from, /** @type {string} */ text) {
    const found = resolvedModule(text, from, asked(this.projects.nearest(path.dirname(from))), this.host);
    if (found && mediaTypeOf(found.resolvedFileName) !== 'Unknown') return found.resolvedFileName;
    const written = path.resolve(path.dirname(from), text);
    return (RELATIVE.test(text) || path.isAbsolute(text)) && this.host.fileExists(written) ? written : null;
  }

  /** The file that a path stands for: the one that is there, but for JavaScript, beside which its declarations may lie. */
  file(/** @type {string} */ wanted) {
    return this.files.isFile(wanted) && !isJavaScript(mediaTypeOf(wanted)) ? wanted : this.at(wanted, wanted);
  }
}

/** Where texts lead in the packages of a folder. */
class Resolver {
  constructor(/** @type {string} */ root, /** @type {ConfiguredPackage[]} */ packages, /** @type {Lookup} */ lookup) {
    this.root = root;
    this.packages = packages;
    this.lookup = lookup;
    this.files = lookup.files;
  }

  /** @returns {ConfiguredPackage | null} */
  packageAt(/** @type {string} */ file) {
    const inside = this.packages.filter((it) => it.dir === this.root || isInside(it.dir, file));
    return inside.sort((a, b) => b.dir.length - a.dir.length)[0] || null;
  }

  /** The file behind links, as the compiler finds it, if it lies in the folder; else the file as it is named. */
  behindLinks(/** @type {string} */ file) {
    if (this.files.refusal(file)) return file;
    return path.join(this.root, path.relative(this.files.realRoot, this.files.real(file)));
  }

  /** The declaration file of JavaScript, or the file itself. */
  typed(/** @type {string} */ file) {
    const found = isJavaScript(mediaTypeOf(file)) ? this.lookup.file(file) || file : file;
    if (!isJavaScript(mediaTypeOf(found)) || this.files.refusal(found)) return found;
    const named = this.lookup.answers.of(`types of ${found}`, () => selfTypes(this.files.text(found).text));
    return (named && named.startsWith('.') && this.lookup.at(found, named)) || found;
  }

  /**
   * The entry points of a package: the key and the file of each.
   *
   * @returns {[string, string][]}
   */
  entriesOf(/** @type {ConfiguredPackage} */ it) {
    return it.exports.map(([key, file]) => {
      const behind = this.behindLinks(file);
      return [key, this.typed(isInside(it.dir, behind) ? behind : file)];
    });
  }

  /** The path that the map of imports has for a text in a file: null where it leads out, undefined where the map has none. */
  mapped(/** @type {string} */ from, /** @type {string} */ text) {
    const { imports } = this.packageAt(from) || NO_PACKAGE;
    const best = bestKey(imports, text);
    const target = best && imports[best.key];
    if (best) return target && target.replace('*', () => best.rest);
    const [folder] = Object.keys(imports).filter((it) => it.endsWith('/') && text.startsWith(it)).sort((a, b) => b.length - a.length);
    if (folder === undefined) return undefined;
    const above = imports[folder];
    return above && path.join(above, text.slice(folder.length));
  }

  /** The entry point that the name of a package of the folder leads to, with the rest of a text. */
  ofPackage(/** @type {string} */ text) {
    for (const it of this.packages) {
      if (text !== it.name && !text.startsWith(`${it.name}/`) && !text.startsWith(`${it.name}@`)) continue;
      const below = text.slice(it.name.length).replace(/^@[^/]*/, '');
      const found = it.exports.find(([key]) => key === `.${below}`);
      if (found) return found[1];
    }
    return null;
  }

  /** The file that a text of a file leads to before links are followed, or null. */
  found(/** @type {string} */ from, /** @type {string} */ text) {
    if (RELATIVE.test(text)) return this.lookup.at(from, text);
    const mapped = this.mapped(from, text);
    if (mapped !== undefined) return mapped && this.lookup.file(mapped);
    return (SCHEME.test(text) ? null : this.lookup.at(from, text)) || this.ofPackage(text.replace(/^(jsr|npm):\/?/, ''));
  }

  /** The file that a source text leads to, or null where it leads out of the folder. */
  resolve(/** @type {string} */ from, /** @type {string} */ text, /** @type {string | null} */ comment = null) {
    const named = comment && namedTypes(comment);
    const typed = named && named.startsWith('.') ? this.lookup.at(from, named) : null;
    if (typed) return typed;
    const found = this.found(from, text);
    return found && isInside(this.root, found) ? this.typed(this.behindLinks(found)) : null;
  }

  /** Whether a package, an import map or the system explains a text that leads out of the folder. */
  isExplained(/** @type {string} */ from, /** @type {string} */ text) {
    if (SCHEME.test(text) || builtinModules.includes(text)) return true;
    const { imports, dependencies } = this.packageAt(from) || NO_PACKAGE;
    const name = packageName(text);
    const isMapped = [text, name].some((it) => imports[it] === null) || Object.keys(imports).some((it) => imports[it] === null && bestKey({ [it]: 1 }, text));
    return isMapped || dependencies.has(name) || this.isInstalled(path.dirname(from), name);
  }

  /**
   * Whether a package lies in a `node_modules` of the folder, above a file.
   *
   * @returns {boolean}
   */
  isInstalled(/** @type {string} */ folder, /** @type {string} */ name) {
    if (name === '' || name.startsWith('#')) return false;
    if (this.files.kind(path.join(folder, 'node_modules', name)) === 'folder') return true;
    return folder !== this.root && isInside(this.root, folder) && this.isInstalled(path.dirname(folder), name);
  }
}

module.exports = { Lookup, RELATIVE, Resolver, SCHEME, packageName };
