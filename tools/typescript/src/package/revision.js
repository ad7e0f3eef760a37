'use strict';
// A revision of a repository, in a folder of its own. Nothing is checked out.
const childProcess = require('child_process');
const fs = require('fs');
const os = require('os');
const path = require('path');

const git = (/** @type {string} */ folder, /** @type {string[]} */ words, more = {}) => childProcess.spawnSync('git', ['-C', folder, ...words], { maxBuffer: 1 << 30, ...more });

/** Unpacks what a folder of a repository has at a revision, and answers where; null where there is no such revision. */
function unpacked(/** @type {string} */ revision, /** @type {string} */ folder) {
  const found = git(folder, ['rev-parse', '--verify', '--quiet', '--end-of-options', `${revision}^{commit}`]);
  if (found.status !== 0) return null;
  const archive = git(folder, ['archive', '--format=tar', found.stdout.toString().trim(), '.']);
  if (archive.status !== 0) return null;
  const made = fs.mkdtempSync(path.join(os.tmpdir(), 'fast-check-ts-'));
  childProcess.execFileSync('tar', ['-x', '-C', made], { input: /** @type {Uint8Array} */ (archive.stdout) });
  return made;
}

module.exports = { unpacked };
