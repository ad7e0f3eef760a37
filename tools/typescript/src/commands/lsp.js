'use strict';
// The command `lsp`: a language server over standard input and output. It ends when the client says so.
const { Server } = require('../lsp/server.js');

function lsp() {
  return new Promise((resolve) => {
    const end = (/** @type {number} */ status) => {
      process.stdin.destroy();
      resolve(status);
    };
    new Server(process.stdin, process.stdout, end);
  });
}

module.exports = { lsp };
