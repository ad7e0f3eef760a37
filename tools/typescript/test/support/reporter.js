'use strict';
// What `test.sh` prints: the tests that fail, and how many passed.

/** @typedef {{ type: string, data: { name: string, file?: string, message?: string, skip?: string | boolean, details?: { error?: Error & { cause?: unknown }, type?: string } } }} Event */

/** @param {AsyncIterable<Event>} source */
module.exports = async function* reporter(source) {
  let passed = 0;
  let failed = 0;
  /** @type {string[]} */
  const skipped = [];
  const isAsked = (/** @type {string | boolean} */ why) => why !== 'test name does not match pattern';
  for await (const { type, data } of source) {
    // A file is a test too, where it does not end well.
    if (type === 'test:pass' && data.skip) skipped.push(...(isAsked(data.skip) ? [data.name] : []));
    else if (type === 'test:pass' && !data.name.endsWith('.test.js')) passed += 1;
    if (type !== 'test:fail' || (data.details && data.details.error && /subtests? failed/.test(data.details.error.message))) continue;
    failed += 1;
    const error = data.details && data.details.error;
    const cause = error && error.cause;
    const text = cause instanceof Error ? cause.message : String(cause || error);
    yield `FAILED ${data.name}\n${text.replace(/^/gm, '  ')}\n`;
  }
  if (skipped.length) yield `not run: ${skipped.join(', ')}\n`;
  yield `${passed} passed, ${failed} failed\n`;
};
