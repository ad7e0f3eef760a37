'use strict';
// Stored packages in which lines are moved and a body is edited behind a first run: what is cached has to say what a run without a cache says.
const fs = require('fs');
const path = require('path');
const { test } = require('node:test');
const { run, same, withFolder, PACKAGES } = require('./support/helpers.js');
const { NAMES } = require('./support/stored.js');

/** Each fifth package, since each takes five runs. */
const SOME = NAMES.filter((_, at) => at % 5 === 0);

/** A module with a comment before it, and a statement in the first body that a list of parameters leads to. */
const edited = (/** @type {string} */ text) => `// moved\n${text.replace(/\) \{(?=\s)/, ') { void 0;')}`;

/** Edits all modules of a folder. */
function editAll(/** @type {string} */ folder) {
  for (const entry of fs.readdirSync(folder, { withFileTypes: true })) {
    const file = path.join(folder, entry.name);
    if (entry.isDirectory()) editAll(file);
    else if (entry.isFile() && /\.[cm]?tsx?$/.test(entry.name)) fs.writeFileSync(file, edited(fs.readFileSync(file, 'utf8')));
  }
}

for (const name of SOME) {
  test(`places that move: package ${name}`, () => withFolder(async (folder) => {
    fs.cpSync(path.join(PACKAGES, name), folder, { recursive: true });
    const ran = async (/** @type {string[]} */ ...words) => Object.values(await run([...words, '--reader', 'typescript', '.'], { cwd: folder, environment: { XDG_CACHE_HOME: path.join(folder, '.cache') } })).join('\n');
    await ran('check');
    editAll(folder);
    for (const words of [['check', '--json'], ['skeleton']]) same(await ran(...words), await ran(...words, '--no-cache'), words.join(' '));
  }));
}
