'use strict';
// Loads a compiler with the code that V8 has compiled of it in an earlier run, which takes a third of the time, and first of all what reads files.
const { isAscii } = require('buffer');
const crypto = require('crypto');
const fs = require('fs');
const Module = require('module');
const path = require('path');
const vm = require('vm');

/** @typedef {import('vm').Script} Script */
/** @typedef {import('./find.js').Compiler} Compiler */

/** The compiled code of a part of a file in a folder, by what may change it: the file, and the version of Node. */
function entryOf(/** @type {string} */ folder, /** @type {string} */ file, /** @type {string} */ part) {
  const { mtimeMs, size } = fs.statSync(file);
  const key = crypto.createHash('sha256').update(`ascii ${part} ${file} ${mtimeMs} ${size} ${process.version} ${process.arch}`).digest('hex');
  return path.join(folder, 'code', key);
}

function readOr(/** @type {string} */ file) {
  try {
    return fs.readFileSync(file);
  } catch {
    return undefined;
  }
}

// About how many bytes are looked at together, and what ends them.
const CHUNK = 1 << 12;
const NEWLINE = 10;

/** A text with an escape for each unit that is no ASCII, as bytes. */
function escaped(/** @type {string} */ text) {
  return Buffer.from(text.replace(/[^\x00-\x7f]/g, (it) => `\\u${it.charCodeAt(0).toString(16).padStart(4, '0')}`));
}

// What stands before and behind the code of a module.
const [HEAD, TAIL] = Module.wrap('\0').split('\0');

/**
 * Code of JavaScript as the function of a module. What is no ASCII stands in it as an escape: V8 reads a text of one byte a character in less than half the time.
 * Where an escape would say something else, and before Node 18.15, the text as it is.
 */
function codeOf(/** @type {Buffer} */ bytes) {
  if (!isAscii) return Module.wrap(bytes.toString());
  const parts = [Buffer.from(HEAD)];
  let copied = 0;
  for (let at = 0; at < bytes.length;) {
    const line = bytes.indexOf(NEWLINE, at + CHUNK);
    const end = line < 0 ? bytes.length : line + 1;
    if (!isAscii(/** @type {Uint8Array} */ (bytes.subarray(at, end)))) {
      const text = bytes.toString('utf8', at, end);
      if (/\\[^\x00-\x7f]|String\.raw/.test(text)) return Module.wrap(bytes.toString());
      parts.push(bytes.subarray(copied, at), escaped(text));
      copied = end;
    }
    at = end;
  }
  // One text in one piece, of which V8 makes no copy.
  return Buffer.concat(/** @type {Uint8Array[]} */ ([...parts, bytes.subarray(copied), Buffer.from(TAIL)])).toString('latin1');
}

/** Writes compiled code beside its place, and moves it there. Where that fails, the next run compiles anew. */
function keep(/** @type {string} */ entry, /** @type {Script} */ script) {
  const beside = `${entry}.${process.pid}`;
  try {
    for (const folder of [path.dirname(path.dirname(entry)), path.dirname(entry)]) if (!fs.existsSync(folder)) fs.mkdirSync(folder);
    fs.writeFileSync(beside, /** @type {Uint8Array} */ (script.createCachedData()), { mode: 0o600 });
    fs.renameSync(beside, entry);
  } catch {
    fs.rmSync(beside, { force: true });
  }
}

/**
 * Runs code of a file as that of a module, which may have exports already. `folder` is where compiled code is kept, or null.
 *
 * @param {string} part
 * @param {Buffer} bytes
 * @param {{ file: string, folder: string | null, module: Module }} asked
 */
function run(part, bytes, { file, folder, module }) {
  const entry = folder && entryOf(folder, file, part);
  const cachedData = entry ? readOr(entry) : undefined;
  const script = new vm.Script(codeOf(bytes), { filename: file, cachedData });
  script.runInThisContext().call(module.exports, module.exports, Module.createRequire(file), module, file, path.dirname(file));
  // At its end a run has compiled what the next one needs too.
  if (entry && (!cachedData || script.cachedDataRejected)) process.once('exit', () => keep(entry, script));
}

// How a part of a compiler before 5.0 begins, each of which adds to one object, and what the first part has that reads no files.
const PART = '\nvar ts;';
const LATER = 'function bindSourceFile(';
// Behind how many bytes that part begins at most.
const MOST = 1 << 22;

/** The beginning of a file. */
function beginningOf(/** @type {string} */ file) {
  const bytes = Buffer.allocUnsafe(MOST);
  const opened = fs.openSync(file, 'r');
  try {
    return bytes.subarray(0, fs.readSync(opened, bytes, 0, MOST, 0));
  } finally {
    fs.closeSync(opened);
  }
}

/**
 * A compiler: `ts` has at least what reads files, which is a quarter of a compiler before 5.0, and `whole()` the same object with all else.
 *
 * @param {string} file
 * @param {string | null} folder where compiled code is kept
 * @returns {Compiler}
 */
function compilerOf(file, folder) {
  const module = new Module(file);
  module.filename = file;
  module.paths = Module.createRequire(file).resolve.paths('typescript') || [];
  const asked = { file, folder, module };
  const beginning = beginningOf(file);
  const later = beginning.indexOf(LATER);
  const end = later < 0 ? -1 : beginning.lastIndexOf(PART, later);
  if (end < 0) {
    run('whole', fs.readFileSync(file), asked);
    return { ts: module.exports, whole: () => module.exports };
  }
  run('reader', Buffer.concat(/** @type {Uint8Array[]} */ ([beginning.subarray(0, end), Buffer.from('\nmodule.exports = ts;')])), asked);
  const { idText, objectAllocator } = module.exports;
  // The rest gives nodes the calls that answer their texts.
  Object.defineProperty(objectAllocator.getIdentifierConstructor().prototype, 'text', { get() { return idText(this); } });
  let isWhole = false;
  const whole = () => {
    if (isWhole) return module.exports;
    isWhole = true;
    const bytes = fs.readFileSync(file);
    const shared = Buffer.from('\nvar ts = module.exports;');
    run('rest', Buffer.concat(/** @type {Uint8Array[]} */ ([bytes.subarray(0, bytes.indexOf(PART)), shared, bytes.subarray(end)])), asked);
    return module.exports;
  };
  return { ts: module.exports, whole };
}

module.exports = { compilerOf };
