'use strict';
// Copies pages of the repository into a folder, as they lie in the repository. A link to what is not among them becomes its text:
//
//   node tools/debian/pages.js FOLDER FILE ..
const fs = require('fs');
const path = require('path');

const TOP = path.resolve(__dirname, '../..');
const [folder, ...files] = process.argv.slice(2);
const there = new Set(files.flatMap((file) => [file, path.dirname(file)]));

/** A page whose links lead to files that are copied too. */
function withoutDeadLinks(file, text) {
  return text.replace(/!?\[((?:[^\][]|\[[^\]]*\])*)\]\(([^)\s]+)\)/g, (whole, shown, target) => {
    if (/^(?:[a-z]+:|#)/.test(target)) return whole;
    const wanted = path.posix.normalize(path.posix.join(path.dirname(file), target.replace(/#.*$/, ''))).replace(/\/$/, '');
    return there.has(wanted) ? whole : shown;
  });
}

for (const file of files) {
  const from = path.join(TOP, file);
  const to = path.join(folder, file);
  fs.mkdirSync(path.dirname(to), { recursive: true });
  if (file.endsWith('.md')) fs.writeFileSync(to, withoutDeadLinks(file, fs.readFileSync(from, 'utf8')));
  else fs.copyFileSync(from, to);
}
