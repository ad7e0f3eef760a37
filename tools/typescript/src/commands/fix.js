'use strict';
// The command `fix`: writes the types that messages ask for.
const fs = require('fs');
const path = require('path');
const { COLOURS, folderOf, messagesOf, statusOf, writeMessages } = require('./shared.js');

/** @typedef {import('../cli/types').Context} Context */
/** @typedef {import('../cli/types').Options} Options */

/** The folder that the paths of a patch begin at, as git takes them: the repository around a package, else where the command was started, or the package itself. */
function rootOfPatch(/** @type {string} */ folder, /** @type {string} */ cwd) {
  const { isInside } = require('../package/files.js');
  for (let at = folder; ; at = path.dirname(at)) {
    if (fs.existsSync(path.join(at, '.git'))) return at;
    if (at === path.dirname(at)) return folder === cwd || isInside(cwd, folder) ? cwd : folder;
  }
}

/** The changes of texts as a unified diff. */
function writeDiff(/** @type {Map<string, string>} */ texts, /** @type {string} */ folder, /** @type {Context} */ { out, paint, cwd }) {
  const { unified } = require('../diff/names.js');
  const { markOf, readText } = require('../package/files.js');
  const root = rootOfPatch(folder, cwd);
  for (const [file, text] of [...texts].sort(([a], [b]) => (a < b ? -1 : 1))) {
    const mark = markOf(file);
    for (const line of unified(path.relative(root, file), mark + readText(file).text, mark + text)) out.write(`${paint(COLOURS[line[0]] || 'bold', line)}\n`);
  }
}

async function fix(/** @type {string[]} */ [word], /** @type {Options} */ options, /** @type {Context} */ context) {
  const { rewriteTexts } = require('../package/files.js');
  const { fixed } = require('../compiler/thread.js');
  const { world, texts, count: types } = await fixed(folderOf(word, context), options, context);
  context.progress.end();
  if (options.dry) writeDiff(texts, folderOf(word, context), context);
  else rewriteTexts(texts);
  const told = messagesOf(world);
  writeMessages(told, options, options.dry ? { out: context.err, paint: context.paintErrors } : context);
  const { seconds } = require('../cli/progress.js');
  const { count } = require('../messages/formats.js');
  const done = options.dry ? 'to write in' : 'written in';
  const summary = `${count(types, 'type')} ${done} ${count(texts.size, 'file')}, ${count(told.length, 'message')} left, ${seconds(context)}\n`;
  (options.dry ? context.err : context.out).write(summary);
  return statusOf(world, told);
}

module.exports = { fix };
