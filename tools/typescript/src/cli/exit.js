'use strict';
// What goes wrong with the tool itself, which is no refusal: reported with its place, and a status of its own.
const path = require('path');
const { NAME } = require('./installed.js');

/** @typedef {import('./types').KnownError} KnownError */

/** The status of a run in which the tool itself is at fault. */
const INTERNAL = 70;

/** Whether an error says by itself what is wrong: that of a system call, or one with a status. */
function isKnown(/** @type {KnownError} */ error) {
  return error.status !== undefined || (error.syscall !== undefined && error.code !== undefined);
}

/** Whether the stack did not suffice for the levels of a source. */
function isTooDeep(/** @type {unknown} */ error) {
  return error instanceof RangeError && /call stack/.test(error.message);
}

/** The file and the line that an error comes from, as `returns.js:77`. */
function placeOf(/** @type {{ stack?: string }} */ error) {
  const frame = /\n\s+at (?:.*\()?(?:file:\/\/)?(\/[^\n]*?):(\d+):\d+\)?/.exec(error.stack || '');
  return frame ? `${path.basename(frame[1])}:${frame[2]}` : NAME;
}

/** What is reported of a fault of the tool, with the module that it was at, where that is known. */
function internalText(/** @type {KnownError} */ error, /** @type {string | undefined} */ module) {
  const [first] = String((error && error.message) || error).split('\n');
  return `internal error in ${placeOf(error || {})}${module ? ` (module ${module})` : ''}: ${first}, please report it`;
}

/**
 * What an exception says: `{messages, status, message}`; one that is no refusal is a fault of this tool.
 *
 * @returns {import('./types').Refusal}
 */
function refusalOf(/** @type {KnownError} */ error) {
  if (isKnown(error)) return { messages: error.messages || [], status: error.status || 2, message: error.message };
  /** @type {import('../messages/types').Message} */
  const message = { level: 'Error', code: 'internal-error', message: internalText(error, error.module), info: [] };
  return { messages: [message], status: INTERNAL, message: 'nothing more is answered' };
}

module.exports = { INTERNAL, internalText, isKnown, isTooDeep, refusalOf };
