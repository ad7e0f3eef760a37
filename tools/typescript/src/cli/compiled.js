'use strict';
// Loads the modules of this tool with the code that V8 has compiled of them in an earlier run.
const crypto = require('crypto');
const fs = require('fs');
const Module = require('module');
const path = require('path');
const vm = require('vm');

/** @typedef {{ _compile(text: string, file: string): unknown, exports: object }} Compiling */

const OWN = path.resolve(__dirname, '..') + path.sep;
const NEWLINE = 10;
// From how many bytes on what a run does not need is dropped, as of earlier versions.
const LARGE = 1 << 22;

const hashOf = (/** @type {string} */ text) => crypto.createHash('md5').update(text).digest('base64');

/** The compiled code of some files, by the hashes of their texts. */
class Compiled {
  /** `file` is where it is kept. */
  constructor(/** @type {string} */ file) {
    this.file = file;
    /** @type {Map<string, Buffer>} */
    this.known = new Map();
    /** @type {Map<string, vm.Script>} */
    this.made = new Map();
    /** @type {Set<string>} */
    this.used = new Set();
    this.length = 0;
  }

  /** Reads what is kept: a line with the hashes and the lengths, and the code. */
  read() {
    try {
      const bytes = fs.readFileSync(this.file);
      this.length = bytes.length;
      let at = bytes.indexOf(NEWLINE) + 1;
      for (const [hash, length] of JSON.parse(bytes.toString('utf8', 0, at))) {
        this.known.set(hash, bytes.subarray(at, at + length));
        at += length;
      }
    } catch {
      // It is not there, or damaged: then all is compiled.
    }
  }

  /** The function of a module. */
  functionOf(/** @type {string} */ text, /** @type {string} */ file) {
    const hash = hashOf(`${file}\n${text}`);
    const cachedData = this.known.get(hash);
    this.used.add(hash);
    const script = new vm.Script(Module.wrap(text), { filename: file, cachedData });
    if (script.cachedDataRejected) this.known.delete(hash);
    if (!cachedData || script.cachedDataRejected) this.made.set(hash, script);
    return script.runInThisContext();
  }

  /** Writes what was compiled with what is known beside its place, and moves it there. */
  keep() {
    if (!this.made.size) return;
    const beside = `${this.file}.${process.pid}`;
    try {
      const known = [...this.known].filter(([hash]) => this.length < LARGE || this.used.has(hash));
      const all = [...known, ...[...this.made].map(([hash, script]) => /** @type {const} */ ([hash, script.createCachedData()]))];
      const head = Buffer.from(`${JSON.stringify(all.map(([hash, bytes]) => [hash, bytes.length]))}\n`);
      fs.mkdirSync(path.dirname(this.file), { recursive: true });
      fs.writeFileSync(beside, /** @type {Uint8Array} */ (Buffer.concat(/** @type {Uint8Array[]} */ ([head, ...all.map(([, bytes]) => bytes)]))), { mode: 0o600 });
      fs.renameSync(beside, this.file);
    } catch {
      fs.rmSync(beside, { force: true });
    }
  }
}

/** Has the modules of this tool that are loaded from now on compiled once, for this and later runs. */
function keepCompiled(/** @type {string} */ folder) {
  const compiled = new Compiled(path.join(folder, 'code', `tool-${process.version}-${process.arch}`));
  const loader = /** @type {Compiling} */ (/** @type {unknown} */ (Module.prototype));
  const { _compile: compile } = loader;
  compiled.read();
  /** @type {(this: Compiling, text: string, file: string) => unknown} */
  loader._compile = function compileOwn(text, file) {
    if (!file.startsWith(OWN)) return compile.call(this, text, file);
    return compiled.functionOf(text, file).call(this.exports, this.exports, Module.createRequire(file), this, file, path.dirname(file));
  };
  // At its end a run has compiled what the next one needs too.
  process.once('exit', () => compiled.keep());
}

module.exports = { keepCompiled };
