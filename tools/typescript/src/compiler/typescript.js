'use strict';
// TypeScript's compiler API, as `find.js` finds it. It is loaded when it is asked for first, which takes as long as a small package.

const { isVersionFrom, loadCompiler } = require('./find.js');

/** @type {import('./find.js').Compiler | null} */
let loaded = null;

function compiler() {
  loaded = loaded || loadCompiler();
  return loaded;
}

/** Whether the compiler is of this version or a newer one. */
function isFrom(/** @type {number} */ major, /** @type {number} */ minor) {
  return isVersionFrom(compiler().ts.version, major, minor);
}

/** What a diagnostic says, which is a text or a chain of texts. */
function textOf(/** @type {string | ts.DiagnosticMessageChain} */ said) {
  return typeof said === 'string' ? said : compiler().whole().flattenDiagnosticMessageText(said, ' ');
}

module.exports = {
  /** What reads files: the parser, configurations, and where imports lead. */
  get ts() {
    return compiler().ts;
  },
  /** All of it, which takes three times as long to load. */
  get whole() {
    return compiler().whole();
  },
  get version() {
    return compiler().ts.version;
  },
  isFrom,
  textOf,
};
