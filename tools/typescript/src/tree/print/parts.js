'use strict';
// What prints the forms that hold each other, as a type an expression. A file asks for those of files that it cannot load here; `index.js` fills the table.

/** @type {import('./printers').Parts} */
const parts = /** @type {import('./printers').Parts} */ ({});

module.exports = { parts };
