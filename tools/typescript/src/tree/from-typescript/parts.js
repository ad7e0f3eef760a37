'use strict';
// The parts of the conversion that hold each other, as an expression a body with statements. A file asks for those of files that it cannot load here; `index.js`
// fills the table.

/** @type {import('./nodes').Parts} */
const parts = /** @type {import('./nodes').Parts} */ ({});

module.exports = { parts };
