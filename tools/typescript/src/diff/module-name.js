'use strict';
// Names of modules of other packages, however an import writes them.

/** The name of a package's module without the registry and the version that a text names: `zod/v4` of `npm:zod@4.1/v4`, `fs` of `node:fs`. */
function moduleName(/** @type {string} */ text) {
  if (text.startsWith('node:')) return text.slice('node:'.length);
  const found = /^(?:npm|jsr):\/?((?:@[^/]+\/)?[^@/]+)(?:@[^/]*)?(.*)$/s.exec(text);
  return found ? found[1] + found[2] : text;
}

module.exports = { moduleName };
