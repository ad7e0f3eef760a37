'use strict';
// The pages that explain the codes of messages: docs/errors in a clone, and `errors` where the tool is installed.
const fs = require('fs');
const path = require('path');
const { ERRORS } = require('../cli/installed.js');
const { isCode } = require('./codes.js');

/** The page of a code; null where it has none. All errors of TypeScript's compiler have one. */
function explanationOf(/** @type {string} */ code) {
  if (!isCode(code)) return null;
  const file = path.join(ERRORS, `${/^typescript-\d/.test(code) ? 'typescript' : code}.md`);
  return fs.existsSync(file) ? fs.readFileSync(file, 'utf8') : null;
}

module.exports = { explanationOf };
