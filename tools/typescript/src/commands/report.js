'use strict';
// The command `report`: a page to look at.
const fs = require('fs');
const path = require('path');
const { folderOf, messagesOf, statusOf } = require('./shared.js');

/** @typedef {import('../cli/types').Context} Context */
/** @typedef {import('../cli/types').Options} Options */
/** @typedef {import('../program/types').World} World */
/** @typedef {import('../messages/types').Message} Message */

/** For each message the line of its source as `fix` would write it, where it would write another. The compiler infers the types. */
async function writtenLines(/** @type {World} */ world, /** @type {string} */ folder, /** @type {Options} */ options, /** @type {Context} */ context) {
  const { fixed } = require('../compiler/thread.js');
  const { editsBetween } = require('../lsp/documents.js');
  const { texts } = await fixed(folder, options, context);
  const changed = [...world.files.values()].flatMap(({ specifier, path: file, text }) => {
    const after = texts.get(file);
    return after === undefined ? [] : [/** @type {const} */ ([specifier, editsBetween(text, after)])];
  });
  const edits = new Map(changed);
  return (/** @type {Message} */ { specifier = '', lines, start }) => {
    const line = lines ? lines.place(start).line : -1;
    const edit = (edits.get(specifier) || []).find(({ range }) => range.start.line <= line && line < range.end.line);
    return edit && edit.newText.split(/\r?\n/)[line - edit.range.start.line].trim();
  };
}

async function report(/** @type {string[]} */ [word, file], /** @type {Options} */ options, /** @type {Context} */ context) {
  const { analyse } = require('../program/answer.js');
  const { page } = require('../report/index.js');
  const { summary } = require('../messages/formats.js');
  const world = await analyse(folderOf(word, context), { ...options, preview: true }, context);
  const written = options.types && world.messages.length ? await writtenLines(world, folderOf(word, context), options, context) : undefined;
  context.progress.begin('writing the page');
  fs.writeFileSync(path.resolve(context.cwd, file), page(world, written));
  context.progress.end();
  context.out.write(`${file}: ${summary([{ world, messages: messagesOf(world), allowed: 0, known: 0 }], context)}\n`);
  return statusOf(world, world.messages);
}

module.exports = { report };
