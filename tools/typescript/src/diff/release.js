'use strict';
// Version numbers: which one a change asks for.

/** @typedef {import('./types').Advice} Advice */

/** @type {Advice[]} */
const RANKS = ['patch', 'minor', 'major'];

const numbersOf = (/** @type {string} */ version) => (/^(\d+)\.(\d+)\.(\d+)/.exec(version) || []).slice(1).map(Number);

/**
 * The least version behind an older one for a change that is `major`, `minor` or `patch`. Below 1.0.0 the first number that is not zero is raised by a major
 * change, and the last one by any other, as the ranges `^0.3.1` and `^0.0.3` of npm and deno have it.
 */
function leastVersion(/** @type {string} */ old, /** @type {Advice} */ advice) {
  const [major, minor, patch] = numbersOf(old);
  if (/^[\d.]+-/.test(old)) return `${major}.${minor}.${patch}`;
  if (major > 0) return { major: `${major + 1}.0.0`, minor: `${major}.${minor + 1}.0`, patch: `${major}.${minor}.${patch + 1}` }[advice];
  return advice === 'major' && minor > 0 ? `0.${minor + 1}.0` : `0.${minor}.${patch + 1}`;
}

/** Whether a version has lower numbers than another one. */
function isBefore(/** @type {string} */ version, /** @type {string} */ other) {
  const [a, b] = [version, other].map(numbersOf);
  const at = a.findIndex((it, place) => it !== b[place]);
  return at >= 0 && a[at] < b[at];
}

/** The highest of some parts of a version number. */
function highest(/** @type {(Advice | undefined)[]} */ advices) {
  return RANKS[Math.max(0, ...advices.map((it) => (it ? RANKS.indexOf(it) : -1)))];
}

/** What a package's new version is beside the least one for a change, as a text; null where a version is not known. */
function versionText(/** @type {string} */ old, /** @type {string} */ now, /** @type {Advice} */ advice) {
  if (!old || !now) return null;
  const least = leastVersion(old, advice);
  if (old === now) return `the next version is ${least} or higher`;
  return isBefore(now, least) ? `${now} is too low: ${least}` : `${now} is high enough`;
}

module.exports = { highest, versionText };
