#!/usr/bin/env node
'use strict';
const { keepCompiled } = require('../src/cli/compiled.js');
const { folderFor } = require('../src/cli/kept-in.js');

const words = process.argv.slice(2);
const folder = words.includes('--no-cache') ? null : folderFor(process.env);
if (folder) keepCompiled(folder);
const { main } = require('../src/cli/main.js');

// A reader that goes away, as `head`, ends the command without a word.
process.stdout.on('error', (error) => process.exit(error.code === 'EPIPE' ? 0 : 4));
const io = { cwd: process.cwd(), environment: process.env, out: process.stdout, err: process.stderr, isCommand: true };
main(words, io).then((status) => {
  process.exitCode = status;
});
