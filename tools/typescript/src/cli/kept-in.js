'use strict';
// Where what is kept between runs lies.
const path = require('path');

/**
 * The folder of entries between runs: $XDG_CACHE_HOME/fast-check-ts, else ~/.cache/fast-check-ts; null where neither is known.
 *
 * @param {Record<string, string | undefined>} environment
 */
function folderFor({ XDG_CACHE_HOME: own, HOME: home }) {
  if (own && path.isAbsolute(own)) return path.join(own, 'fast-check-ts');
  return home && path.isAbsolute(home) ? path.join(home, '.cache', 'fast-check-ts') : null;
}

module.exports = { folderFor };
