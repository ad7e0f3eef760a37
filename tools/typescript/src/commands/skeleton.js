'use strict';
// The command `skeleton`: the skeletons of a package as TypeScript, or its declaration files.
const path = require('path');
const { skeletonsOf } = require('../api/skeletons.js');
const { UsageError } = require('../cli/args.js');
const { folderOf, messagesOf, statusOf, writeMessages } = require('./shared.js');

/** @typedef {import('../cli/types').Context} Context */
/** @typedef {import('../cli/types').Options} Options */

async function skeleton(/** @type {string[]} */ [word, out], /** @type {Options} */ options, /** @type {Context} */ context) {
  const { joined, write } = require('../skeleton/write.js');
  const folder = out === undefined ? null : path.resolve(context.cwd, out);
  if (folder !== null && folder === folderOf(word, context)) throw new UsageError(`${out} is the package itself: give another folder`);
  const { world, skeletons } = await skeletonsOf(folderOf(word, context), options, context);
  writeMessages(messagesOf(world), {}, { out: context.err, paint: context.paintErrors });
  if (folder === null) context.out.write(joined(skeletons));
  else write(folder, skeletons);
  return statusOf(world, world.messages) || (skeletons.length ? 0 : 1);
}

module.exports = { skeleton };
