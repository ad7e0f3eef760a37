'use strict';
// Files of a package: kinds by their names, and where a source text leads.

const crypto = require('crypto');
const fs = require('fs');
const path = require('path');
const typescript = require('../compiler/typescript.js');

/** @typedef {import('./trace.js').Asked} Asked */
/** @typedef {import('./types').ReadText} ReadText */
/** @typedef {import('./types').Patterns} Patterns */

const hashOf = (/** @type {string} */ text) => crypto.createHash('sha256').update(text).digest('base64');

/** @type {[string, import('./types').MediaType][]} */
const MEDIA_TYPES = [
  ['.d.ts', 'Dts'], ['.d.mts', 'Dmts'], ['.d.cts', 'Dcts'], ['.ts', 'TypeScript'], ['.mts', 'Mts'], ['.cts', 'Cts'], ['.tsx', 'Tsx'],
  ['.js', 'JavaScript'], ['.mjs', 'Mjs'], ['.cjs', 'Cjs'], ['.jsx', 'Jsx'], ['.json', 'Json'],
];

/**
 * The media type of a file by its name.
 *
 * @returns {import('./types').MediaType}
 */
function mediaTypeOf(/** @type {string} */ name) {
  const found = MEDIA_TYPES.find(([ending]) => name.endsWith(ending));
  return found ? found[1] : 'Unknown';
}

const DECLARATIONS = new Set(['Dts', 'Dmts', 'Dcts']);
const SCRIPTS = new Set(['JavaScript', 'Mjs', 'Cjs', 'Jsx']);

function isDeclarationFile(/** @type {string} */ mediaType) {
  return DECLARATIONS.has(mediaType);
}

function isJavaScript(/** @type {string} */ mediaType) {
  return SCRIPTS.has(mediaType);
}

/** What stands at a path; null where there is nothing, as behind links that lead in a circle and names that are too long. */
function statOf(/** @type {string} */ file) {
  try {
    return fs.statSync(file, { throwIfNoEntry: false }) || null;
  } catch {
    return null;
  }
}

/** Where the text of some bytes is no UTF-8, as an offset in the text that Node makes of them; -1 where it is. */
function firstWrong(/** @type {Buffer} */ bytes, /** @type {string} */ text) {
  const again = Buffer.from(text);
  if (again.equals(/** @type {Uint8Array} */ (bytes))) return -1;
  let at = 0;
  while (again[at] === bytes[at]) at += 1;
  return Math.min(again.subarray(0, at).toString().replace(/\ufffd$/, '').length, text.length);
}

/** The bytes of a regular file. What is none, as a pipe, is an error: it is not waited for. */
function bytesOf(/** @type {string} */ file) {
  const opened = fs.openSync(file, fs.constants.O_RDONLY | fs.constants.O_NONBLOCK);
  try {
    if (!fs.fstatSync(opened).isFile()) throw Object.assign(new Error(`${file} is no regular file`), { code: 'EINVAL' });
    return fs.readFileSync(opened);
  } finally {
    fs.closeSync(opened);
  }
}

const MARK = '\ufeff';

/**
 * How some bytes are read: as UTF-16 with its mark, the higher byte first (`isBig`) or last (`isLittle`), else as UTF-8.
 *
 * @param {Buffer} bytes
 */
function orderOf(bytes) {
  return { isBig: bytes[0] === 0xfe && bytes[1] === 0xff, isLittle: bytes[0] === 0xff && bytes[1] === 0xfe };
}

/**
 * The text of a file without its mark of byte order, and where it is no text (`wrong`, else -1). Beside UTF-8 the compiler reads UTF-16 with its mark.
 *
 * @returns {ReadText}
 */
function readText(/** @type {string} */ file) {
  const bytes = bytesOf(file);
  const { isBig, isLittle } = orderOf(bytes);
  if (isBig || isLittle) {
    const even = bytes.subarray(2, bytes.length - (bytes.length % 2));
    return { text: (isBig ? Buffer.from(/** @type {Uint8Array} */ (even)).swap16() : even).toString('utf16le'), wrong: -1 };
  }
  const text = bytes.toString();
  const mark = text.startsWith(MARK) ? 1 : 0;
  const wrong = firstWrong(bytes, text);
  return { text: text.slice(mark), wrong: wrong < 0 ? wrong : wrong - mark };
}

/** The mark of byte order that a file of UTF-8 begins with, or nothing. */
function markOf(/** @type {string} */ file) {
  return bytesOf(file).toString('utf8', 0, 3) === MARK ? MARK : '';
}

/** Another text for a file that is there, as bytes like those of the file: in UTF-8 or UTF-16, with their mark of byte order where they have one. */
function bytesFor(/** @type {string} */ file, /** @type {string} */ text) {
  const { isBig, isLittle } = orderOf(bytesOf(file));
  const mark = isBig || isLittle ? MARK : markOf(file);
  const made = Buffer.from(mark + text, isBig || isLittle ? 'utf16le' : 'utf8');
  return isBig ? made.swap16() : made;
}

/** Writes the bytes that are to replace a file into a new one beside it, which has its rights, and its owner where that may be. */
function writeBeside(/** @type {string} */ file, /** @type {string} */ beside, /** @type {Buffer} */ bytes) {
  fs.accessSync(file, fs.constants.W_OK);
  const { mode, uid, gid } = fs.statSync(file);
  const opened = fs.openSync(beside, 'wx', 0o600);
  try {
    fs.writeFileSync(opened, /** @type {Uint8Array} */ (bytes));
    try {
      fs.fchownSync(opened, uid, gid);
    } catch {
      // Only root gives a file to others.
    }
    fs.fchmodSync(opened, mode & 0o777);
    fs.fsyncSync(opened);
  } finally {
    fs.closeSync(opened);
  }
}

/**
 * Writes other texts to files that are there. All are written beside the files before the first is moved to its place: where one cannot be written, as on a
 * full disk, no file changes.
 */
function rewriteTexts(/** @type {Map<string, string>} */ texts) {
  const mark = `${process.pid}-${Date.now()}`;
  const all = [...texts].map(([name, text], place) => {
    const file = fs.realpathSync(name);
    return { file, text, beside: path.join(path.dirname(file), `.fast-check-${mark}-${place}`) };
  });
  const write = (/** @type {{ file: string, text: string, beside: string }} */ { file, text, beside }) => {
    try {
      writeBeside(file, beside, bytesFor(file, text));
    } catch (error) {
      throw Object.assign(new Error(`no file is changed, since ${file} cannot be written: ${/** @type {Error} */ (error).message}`), { status: 2 });
    }
  };
  try {
    all.forEach(write);
    for (const { file, beside } of all) fs.renameSync(beside, file);
  } finally {
    for (const { beside } of all) fs.rmSync(beside, { force: true });
  }
}

const TEXT = '"(?:[^"\\\\\\n\\r]|\\\\.)*"';
const COMMENT = new RegExp(`${TEXT}|//[^\\n\\r]*|/\\*[^]*?\\*/`, 'g');
const LAST_COMMA = new RegExp(`${TEXT}|(?<=[^\\s[{,]\\s*),(?=\\s*[}\\]])`, 'g');

/** A text of JSON without its comments, and without commas that end a list. */
function plainJson(/** @type {string} */ text) {
  const kept = (/** @type {string} */ it) => (it.startsWith('"') ? it : it.startsWith(',') ? '' : ' ');
  return text.replace(COMMENT, kept).replace(LAST_COMMA, kept);
}

/**
 * The object in a text of JSON, which may have comments and commas that end a list: `{config, error}`, as the compiler reads it.
 *
 * @returns {{ config?: Record<string, unknown>, error?: ts.Diagnostic }}
 */
function readJson(/** @type {string} */ file, /** @type {string} */ text) {
  for (const made of [() => text, () => plainJson(text)]) {
    try {
      const config = JSON.parse(made());
      if (config !== null && typeof config === 'object' && !Array.isArray(config)) return { config };
    } catch {
      // The compiler says where.
    }
  }
  return typescript.ts.parseConfigFileTextToJson(file, text);
}

/**
 * Makes a folder and those above it. Node's own recursive call does not come back where a file system lets nothing be made, as `/proc`.
 */
function makeFolder(/** @type {string} */ folder) {
  try {
    fs.mkdirSync(folder);
  } catch (error) {
    const { code } = /** @type {NodeJS.ErrnoException} */ (error);
    if (code === 'EEXIST' && fs.statSync(folder).isDirectory()) return;
    if (code !== 'ENOENT' || path.dirname(folder) === folder) throw error;
    makeFolder(path.dirname(folder));
    fs.mkdirSync(folder);
  }
}

/** Whether a path lies below a folder. */
function isInside(/** @type {string} */ root, /** @type {string} */ file) {
  // Most paths are plain, and need not be parted.
  if (file.length > root.length + 1 && file[root.length] === path.sep && file.startsWith(root) && !file.includes('..')) return true;
  const inside = path.relative(root, file);
  return inside !== '' && inside !== '..' && !inside.startsWith(`..${path.sep}`) && !path.isAbsolute(inside);
}

/** Looks files of a folder up, each once, and says which are not read. Remembers what it was asked. */
class Files {
  constructor(/** @type {string} */ root) {
    this.root = root;
    this.realRoot = fs.realpathSync.native(root);
    /** @type {Map<string, string>} */
    this.kinds = new Map();
    /** @type {Map<string, string>} */
    this.reals = new Map();
    /** @type {Map<string, { name: string, kind: string, isLink: boolean }[]>} */
    this.folders = new Map();
    /** @type {Map<string, ReadText>} */
    this.texts = new Map();
  }

  /** The path of a file behind all links. */
  real(/** @type {string} */ file) {
    const found = this.reals.get(file) || fs.realpathSync.native(file);
    this.reals.set(file, found);
    return found;
  }

  kind(/** @type {string} */ file) {
    let kind = this.kinds.get(file);
    if (kind === undefined) {
      const found = statOf(file);
      kind = !found ? 'none' : found.isDirectory() ? 'folder' : found.isFile() ? 'file' : 'other';
      this.kinds.set(file, kind);
    }
    return kind;
  }

  /** The names in a folder in order, each with what stands there, also behind a link; none where it is no folder. */
  names(/** @type {string} */ folder) {
    let names = this.folders.get(folder);
    if (!names) {
      const all = this.kind(folder) === 'folder' ? fs.readdirSync(folder, { withFileTypes: true }) : [];
      const kindOf = (/** @type {fs.Dirent} */ it) => (it.isDirectory() ? 'folder' : it.isFile() ? 'file' : this.kind(path.join(folder, it.name)));
      names = all.map((it) => ({ name: it.name, kind: kindOf(it), isLink: it.isSymbolicLink() })).sort((a, b) => (a.name < b.name ? -1 : 1));
      this.folders.set(folder, names);
    }
    return names;
  }

  /** The text of a file that others depend on, as a configuration. */
  text(/** @type {string} */ file) {
    const found = this.texts.get(file) || readText(file);
    this.texts.set(file, found);
    return found;
  }

  /**
   * What was asked, with the answers.
   *
   * @returns {Asked[]}
   */
  get asked() {
    const [kinds, reals, names, texts] = [this.kinds, this.reals, this.folders, this.texts].map((it) => [...it.keys()]);
    /** @type {(question: Asked[0]) => (file: string) => Asked} */
    const answered = (question) => (file) => [question, file, this.answer(question, file)];
    return [...kinds.map(answered('kind')), ...reals.map(answered('real')), ...names.map(answered('names')), ...texts.map(answered('text'))];
  }

  answer(/** @type {Asked[0]} */ question, /** @type {string} */ file) {
    if (question === 'kind') return this.kind(file);
    if (question === 'real') return this.real(file);
    return hashOf(question === 'names' ? this.names(file).map((it) => `${it.name}\n${it.kind}`).join('\n') : this.text(file).text);
  }

  /** Whether the files are as they were when something was asked. */
  isSame(/** @type {Asked[]} */ asked) {
    try {
      return asked.every(([question, file, answer]) => this.answer(question, file) === answer);
    } catch {
      // A file is gone, or may not be read any more.
      return false;
    }
  }

  /** Whether a path is that of the folder, or lies below it. */
  isBelow(/** @type {string} */ file) {
    return file === this.root || isInside(this.root, file);
  }

  /** Whether a file stands there, whatever may be in it. */
  isFile(/** @type {string} */ file) {
    return this.kind(file) === 'file' || this.kind(file) === 'other';
  }

  /** Why a file that is there is not read: it is no regular file, or lies elsewhere, as behind a link that leads out of the folder. Else null. */
  refusal(/** @type {string} */ file) {
    if (this.kind(file) === 'other') return 'this is no regular file';
    if (isInside(this.realRoot, this.real(file))) return null;
    return isInside(this.root, file) ? 'this link leads out of the folder' : 'this file lies outside of the folder';
  }

  isReadable(/** @type {string} */ file) {
    return this.isFile(file) && !this.refusal(file);
  }

  /** The files below a folder that fit some patterns, as the compiler matches paths, without what lies outside. */
  matching(/** @type {string} */ folder, /** @type {Patterns} */ { endings, excludes, includes, depth }) {
    const { ts } = typescript;
    const entriesOf = (/** @type {string} */ at) => {
      const names = this.isBelow(at) && (at === this.root || !this.refusal(at)) ? this.names(at) : [];
      const ofKind = (/** @type {boolean} */ isFolder) => names.filter(({ kind }) => (isFolder ? kind === 'folder' : kind === 'file' || kind === 'other')).map(({ name }) => name);
      return { files: ofKind(false), directories: ofKind(true) };
    };
    return ts.matchFiles(folder, endings, excludes, includes, true, folder, depth, entriesOf, (file) => this.real(file));
  }
}

const BEFORE_IMPORT = /^\/[/*]\s*@(?:deno-types|ts-types)\s*=\s*["']?([^"'\s*]+)/i;
const AT_START = /^(?:\/[/*]\s*@(?:ts-self-types|deno-types)\s*=\s*|\/\/\/\s*<reference\s+types\s*=\s*)["']?([^"'\s>*]+)/i;

/**
 * The declaration file that a comment names for an import: `// @deno-types="./a.d.ts"` or `// @ts-types="./a.d.ts"`.
 *
 * @returns {string | null}
 */
function namedTypes(/** @type {string} */ comment) {
  const found = BEFORE_IMPORT.exec(comment);
  return found ? found[1] : null;
}

/**
 * The declaration file that JavaScript names for itself in the comments at its start, or null.
 *
 * @returns {string | null}
 */
function selfTypes(/** @type {string} */ text) {
  for (const { pos, end } of typescript.ts.getLeadingCommentRanges(text, 0) || []) {
    const found = AT_START.exec(text.slice(pos, end));
    if (found) return found[1];
  }
  return null;
}

module.exports = { Files, isInside, makeFolder, markOf, readJson, readText, rewriteTexts, mediaTypeOf, isDeclarationFile, isJavaScript, namedTypes, selfTypes };
