'use strict';
// A page to look at: the source of each module beside its skeleton. It stands alone, and is whole without its script, which filters modules by their names.
const fs = require('fs');
const path = require('path');
const { classesOf, escape, idOf, listing, message } = require('./listing.js');
const { Marks } = require('./marks.js');
const { withPartial } = require('../program/preview.js');
const { count } = require('../messages/formats.js');
const { printedModule } = require('../skeleton/write.js');
const { Lines } = require('../tree/lines.js');
const { parse, toTree } = require('../tree/index.js');
const { told, ways } = require('../skeleton/reasons.js');

/** @typedef {import('../program/types').World} World */
/** @typedef {import('../program/types').SourceFile} SourceFile */
/** @typedef {import('../messages/types').Message} Message */
/** @typedef {import('./listing.js').Written} Written */
/** @typedef {{ found: Map<string, import('../skeleton/types').Way>, names: Map<string, import('../skeleton/modules.js').Names> }} Known */
/** @typedef {{ file: SourceFile, messages: Message[] }} Shown */

const LEGEND = '<p class="legend"><span class="kept">public</span><span class="gone">goes</span></p>';
// Of more modules those folders alone are open in the list that have messages.
const OPEN = 40;

/** Names in the order in which people list them: `a2` before `a10`. */
const byName = new Intl.Collator('en', { numeric: true }).compare;

const read = (/** @type {string} */ name) => fs.readFileSync(path.join(__dirname, name), 'utf8');

/** Why the declarations of a module are public. */
function reasons(/** @type {World} */ world, /** @type {Known} */ { found, names }, /** @type {string} */ specifier) {
  const declared = names.get(specifier);
  const items = [...(declared ? declared.declared.keys() : [])].map((name) => {
    const key = `${specifier}\n${name}`;
    return `<li><code>${escape(name)}</code> ${escape(found.has(key) ? told(world, found, key) : 'the answer does not tell why')}</li>`;
  });
  if (!items.length) return '';
  return `<details${items.length > 8 ? '' : ' open'}><summary>why: ${items.length} public</summary><ul class="ways">${items.join('')}</ul></details>`;
}

/** The whole tree of a module's source: the program's input leaves out what no rule looks at. */
function programOf(/** @type {SourceFile} */ file) {
  return /** @type {forms.Program} */ (toTree(parse(file.path, file.text)).program);
}

/** What stands behind the word "skeleton": which part of one a preview is. */
function mark(/** @type {World} */ world, /** @type {Shown} */ { file, messages }) {
  if (world.skeletons.has(file.specifier)) return '';
  return messages.length ? ' (a preview, without what has messages)' : ' (a preview)';
}

/** A module's section: its source, its skeleton if it has one, its messages. */
function section(/** @type {World} */ world, /** @type {Known} */ known, /** @type {Shown} */ shown, /** @type {Written} */ written) {
  const { file, messages } = shown;
  const placed = messages.flatMap((each) => (each.lines ? each : []));
  const skeleton = withPartial(world).skeletons.get(file.specifier);
  const marks = skeleton ? new Marks(programOf(file), skeleton.program, Buffer.byteLength(file.text) + 1).marks : null;
  const source = listing(file.lines, classesOf(file, marks, placed), placed, file.name, written);
  const text = skeleton && printedModule(file.name, skeleton, /\.d\.[cm]?ts$/.test(file.specifier));
  const beside = text === undefined ? '' : `<div class="pane"><h3>skeleton${mark(world, shown)}</h3>${listing(new Lines(text), [], [])}</div>`;
  return `<section id="${idOf(file.name)}" data-name="${escape(file.name)}"${messages.length ? '' : ' data-clean'}><h2>${escape(file.name)}</h2>
${messages.filter((each) => !each.lines).map((each) => message(each)).join('')}${skeleton ? reasons(world, known, file.specifier) : ''}
<div class="panes${beside ? '' : ' alone'}"><div class="pane"><h3>source</h3>${source}</div>${beside}</div></section>`;
}

/** The modules by their folders, as links. */
function contents(/** @type {Shown[]} */ shown) {
  /** @type {Map<string, Shown[]>} */
  const folders = new Map();
  for (const each of shown) {
    const folder = path.posix.dirname(each.file.name);
    folders.set(folder, [...(folders.get(folder) || []), each]);
  }
  const entry = (/** @type {Shown} */ { file, messages }) => {
    const link = `<a href="#${idOf(file.name)}">${escape(path.posix.basename(file.name))}</a>`;
    return `<li data-name="${escape(file.name)}"${messages.length ? '' : ' data-clean'}>${link}${messages.length ? ` (${messages.length})` : ''}</li>`;
  };
  const list = [...folders].map(([folder, all]) => {
    const wrong = all.some(({ messages }) => messages.length);
    const open = wrong || shown.length <= OPEN ? ' open' : '';
    const name = folder === '.' ? 'the package' : `${escape(folder)}/`;
    return `<details${open}${wrong ? '' : ' data-clean'}><summary>${name} (${all.length})</summary><ul>${all.map(entry).join('')}</ul></details>`;
  });
  return `<nav aria-label="modules"><input type="search" id="filter" placeholder="filter modules" aria-label="filter modules" hidden>${list.join('')}</nav>`;
}

/** The files that have no section. */
function others(/** @type {World} */ world, /** @type {Shown[]} */ shown) {
  const there = new Set(shown.map(({ file }) => file));
  const names = [...world.files.values()].filter((file) => !there.has(file)).map(({ name }) => name).sort(byName).map((name) => `<code>${escape(name)}</code>`);
  const what = world.skeletons.size || world.preview ? 'nothing is public' : 'nothing is public, or nothing is wrong with it';
  return names.length ? `<p class="others">Of ${names.length === 1 ? 'this file' : 'these files'} ${what}: ${names.join(', ')}</p>` : '';
}

/** What the page begins with: how many files and messages there are, and what is shown of them. */
function summary(/** @type {World} */ world) {
  const all = withPartial(world).skeletons.size;
  const previewed = all > world.skeletons.size;
  const modules = count(all, 'public module');
  const shows = !all ? 'a package with messages has no skeletons' : previewed ? `${modules} in a preview` : modules;
  return [count(world.files.size, 'file'), world.messages.length ? `${count(world.messages.length, 'message')}; ${shows}` : shows].join(', ');
}

/** The page of a folder that was analysed. `written` says the line that `fix` writes for a message. */
function page(/** @type {World} */ analysed, /** @type {Written} */ written = () => undefined) {
  const world = { ...analysed, messages: [...analysed.warnings, ...analysed.broken, ...analysed.messages] };
  const { skeletons } = withPartial(world);
  const known = ways(withPartial(world));
  const shown = [...world.files.values()].sort((a, b) => byName(path.posix.dirname(a.name), path.posix.dirname(b.name)) || byName(a.name, b.name))
    .map((file) => ({ file, messages: world.messages.filter((each) => each.specifier === file.specifier) }))
    .filter(({ file, messages }) => messages.length || skeletons.has(file.specifier));
  const title = escape(world.info.packages.map(({ name, version }) => `${name}@${version}`).join(', '));
  const elsewhere = world.messages.filter((each) => !world.files.has(each.specifier || '')).map((each) => message(each)).join('');
  const some = shown.some(({ messages }) => messages.length) && shown.some(({ messages }) => !messages.length);
  return `<!DOCTYPE html>
<html lang="en"><head><meta charset="utf-8"><meta name="viewport" content="width=device-width, initial-scale=1">
<title>${title}</title><style>${read('report.css')}</style></head>
<body><h1>${title}</h1><p>${escape(summary(world))}</p>
${skeletons.size ? LEGEND : ''}${elsewhere}
${some ? '<input type="checkbox" id="wrong"><label for="wrong">with messages only</label>' : ''}
<div class="layout">${contents(shown)}
<main>
${shown.map((each) => section(world, known, each, written)).join('\n')}
${others(world, shown)}
</main></div><script>${read('filter.js')}</script>
</body></html>
`;
}

module.exports = { page };
