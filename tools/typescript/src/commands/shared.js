'use strict';
// What the commands share: the folder of a word, the messages of a folder, and the status that follows from them.
const fs = require('fs');
const path = require('path');
const { UsageError } = require('../cli/args.js');

/** @typedef {import('../messages/types').Message} Message */
/** @typedef {import('../program/types').World} World */
/** @typedef {import('../cli/types').Output} Output */
/** @typedef {import('../cli/types').Paint} Paint */
/** @typedef {import('../cli/types').Options} Options */
/** @typedef {import('../cli/types').Context} Context */

/** @type {Record<string, string>} */
const COLOURS = { ' ': 'gray', '-': 'red', '+': 'green' };

/** The folder of a word, which has to be there. */
function folderOf(/** @type {string} */ word, /** @type {Context} */ context) {
  const folder = path.resolve(context.cwd, word);
  let found = null;
  try {
    found = fs.statSync(folder);
  } catch {
    throw new UsageError(`there is no folder ${word}`);
  }
  if (!found.isDirectory()) throw new UsageError(`${word} is no folder: give the folder of the package`);
  return folder;
}

function writeMessages(/** @type {Message[]} */ messages, /** @type {Options} */ options, /** @type {{ out: Output, paint: Paint }} */ { out, paint }) {
  const { format, plain } = require('../messages/message.js');
  for (const message of messages) {
    out.write(options.json ? `${JSON.stringify(plain(message))}\n` : `${format(message, paint).join('\n')}\n`);
  }
}

/** All that is reported of a folder before its skeletons are looked at. */
function messagesOf(/** @type {Pick<World, 'warnings' | 'broken' | 'messages'>} */ world) {
  return [...world.warnings, ...world.broken, ...world.messages];
}

/** The status of a folder that was analysed, by what is reported of it: warnings alone are none. */
function statusOf(/** @type {Pick<World, 'broken'>} */ world, /** @type {Message[]} */ told) {
  const { statusOf: statusOfBroken } = require('../program/answer.js');
  return statusOfBroken(world.broken) || (told.some(({ level }) => level !== 'Warning') ? 1 : 0);
}

module.exports = { COLOURS, folderOf, messagesOf, statusOf, writeMessages };
