'use strict';
// The command `diff`: which public names differ between two versions of a package, and which part of the version number has to change.
const fs = require('fs');
const path = require('path');
const { COLOURS, folderOf, messagesOf, writeMessages } = require('./shared.js');
const { NAME } = require('../cli/installed.js');
const { comparison, versionOf } = require('../diff/comparison.js');
const { unpacked } = require('../package/revision.js');
const { UsageError } = require('../cli/args.js');

/** @typedef {import('../cli/types').Context} Context */
/** @typedef {import('../cli/types').Options} Options */
/** @typedef {import('../diff/types').Version} Version */
/** @typedef {import('../diff/types').Compared} Compared */
/** @typedef {import('../diff/types').Change} Change */
/** @typedef {import('../diff/types').Advised} Advised */
/** @typedef {import('../skeleton/types').PublicName} PublicName */

/**
 * Calls back with the folder of a word, and the name under which its files are shown: a folder that is there, or a revision of the repository that the other folder lies in.
 *
 * @template R
 * @param {string} word
 * @param {string} beside
 * @param {Context} context
 * @param {(folder: string, revision: string | null) => Promise<R>} call
 */
async function withFolder(/** @type {string} */ word, /** @type {string} */ beside, /** @type {Context} */ context, call) {
  if (fs.existsSync(path.resolve(context.cwd, word))) return call(folderOf(word, context), null);
  const folder = unpacked(word, folderOf(beside, context));
  if (!folder) throw new UsageError(`there is no folder and no revision ${word}`);
  try {
    return await call(folder, word);
  } finally {
    fs.rmSync(folder, { recursive: true, force: true });
  }
}

/** A version that a word names, as `comparison` takes it. Its messages go to standard error. */
async function readVersion(/** @type {string} */ folder, /** @type {string | null} */ revision, /** @type {Options} */ options, /** @type {Context} */ context) {
  const { analyse } = require('../program/answer.js');
  const world = await analyse(folder, { ...options, preview: true }, revision === null ? context : { ...context, cwd: folder });
  context.progress.end();
  const shown = messagesOf(world).map((it) => (revision === null || !it.file ? it : { ...it, file: `${revision}:${it.file}` }));
  writeMessages(shown, {}, { out: context.err, paint: context.paintErrors });
  return versionOf(world);
}

/** One change as lines. */
function writeChange(/** @type {Change} */ { name, module, change, parts, advice, reason }, /** @type {Context} */ { out, paint }) {
  out.write(`${paint('bold', `${change} ${name}`)} (${module})\n`);
  for (const part of parts) {
    if (part.name !== null) out.write(`  by ${part.name} (${part.module})${part.lines.length ? '' : ', as above'}\n`);
    for (const line of part.lines) out.write(line === null ? '    ..\n' : `${paint(COLOURS[line[0]], `  ${line[0]} ${line[1]}`.trimEnd())}\n`);
  }
  if (advice && change === 'changed') out.write(`  ${advice}: ${reason}\n`);
}

/** All that differs as a text for a pull request. */
function writeMarkdown(/** @type {Compared} */ { changes, advice, reason, hidden, versions }, /** @type {Context} */ { out }) {
  out.write(`**${advice}**: ${reason}\n`);
  for (const text of [...hidden, ...versions]) out.write(`\n${text}\n`);
  for (const { name, module, change, parts, advice: own, reason: why } of changes) {
    const by = parts.filter((part) => part.name !== null).map((part) => `\`${part.name}\` (${part.module})`);
    const told = own && change === 'changed' ? `: ${own}, ${why}` : '';
    out.write(`\n- ${change} \`${name}\` (${module})${by.length ? ` by ${by.join(', ')}` : ''}${told}\n`);
    const lines = parts.flatMap((part) => part.lines).map((line) => (line === null ? ' ..' : `${line[0]} ${line[1]}`));
    if (lines.length) out.write(`\n  \`\`\`diff\n${lines.map((it) => `  ${it}`).join('\n')}\n  \`\`\`\n`);
  }
}

function writeText(/** @type {Compared} */ { changes, advice, reason, hidden, limits: others, versions }, /** @type {Context} */ context) {
  for (const each of changes) writeChange(each, context);
  context.out.write(`${context.paint('bold', advice)}: ${reason}\n`);
  for (const text of hidden) context.out.write(`  ${text}\n`);
  if (advice !== 'preview') context.out.write(`not compared: ${others.join('; ')}\n`);
  for (const text of versions) context.out.write(`${text}\n`);
}

function writeJson(/** @type {Compared} */ { changes, ...others }, /** @type {Context} */ { out }) {
  const { advice, reason, hidden, limits: notCompared, versions } = others;
  for (const each of [...changes, { advice, reason, hidden, notCompared, versions }]) out.write(`${JSON.stringify(each)}\n`);
}

async function diff(/** @type {string[]} */ [old, now], /** @type {Options} */ options, /** @type {Context} */ context) {
  const before = await withFolder(old, now, context, (folder, revision) => readVersion(folder, revision, options, context));
  const after = await withFolder(now, old, context, (folder, revision) => readVersion(folder, revision, options, context));
  if (!before || !after) {
    context.err.write(`${NAME}: a package with messages has no skeletons to compare\n`);
    return 2;
  }
  const found = await comparison(before, after, context);
  const write = options.markdown ? writeMarkdown : options.json ? writeJson : writeText;
  write(found, context);
  if (['preview', 'unknown'].includes(found.advice)) return 2;
  return found.changes.length ? 1 : 0;
}

module.exports = { diff };
