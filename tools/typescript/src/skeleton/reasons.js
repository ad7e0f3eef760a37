'use strict';
// Why something is public: the ways that lead to the declarations of skeletons from the exports of the entry points.
const { SkeletonModules } = require('./modules.js');

/** @typedef {import('./types').Step} Step */
/** @typedef {import('./types').Target} Target */
/** @typedef {import('./types').Way} Way */
/** @typedef {import('../program/types').SkeletonWorld} SkeletonWorld */

/** The search from the entry points through the skeletons. */
class Search {
  constructor(/** @type {SkeletonWorld} */ world) {
    this.world = world;
    this.modules = new SkeletonModules(world);
    /** @type {Map<string, Way>} */
    this.found = new Map();
    /** @type {Way[]} */
    this.queue = [];
    /** @type {Set<string>} */
    this.asked = new Set();
  }

  run() {
    for (const specifier of this.world.info.entryPoints) this.exports(specifier, { from: null, entry: specifier });
    for (const way of this.queue) {
      const step = { from: `${way.specifier}\n${way.name}` };
      for (const target of this.modules.mentionedBy(way.specifier, way.name)) this.lead(target, step);
    }
    return this.found;
  }

  /** All that a module exports. Of one that stands behind a name, as of `export * as names`, the names below it are shown. */
  exports(/** @type {string} */ specifier, /** @type {Step} */ step) {
    if (this.asked.has(specifier)) return;
    this.asked.add(specifier);
    for (const name of this.modules.exportsOf(specifier)) this.lead(this.modules.target(specifier, name), { ...step, as: step.as ? `${step.as}.${name}` : name });
  }

  /** Takes a step to a declaration, or to all that a module exports. What lies in another package is not followed. */
  lead(/** @type {Target | null} */ target, /** @type {Step} */ step) {
    const [specifier, name] = target || [null, null];
    if (specifier === null) return;
    if (name === null) {
      this.exports(specifier, step);
      return;
    }
    const key = `${specifier}\n${name}`;
    if (this.found.has(key)) return;
    const way = { specifier, name, ...step };
    this.found.set(key, way);
    this.queue.push(way);
  }
}

/** For each public declaration of the skeletons, under `specifier\nname`, the step that leads to it first, and what each module declares. */
function ways(/** @type {SkeletonWorld} */ world) {
  const search = new Search(world);
  return { found: search.run(), names: search.modules.names };
}

/** A way as text: `mod.ts exports 'area' -> 'Shape' of shapes.ts`. */
function told(/** @type {Pick<SkeletonWorld, 'files'>} */ world, /** @type {Map<string, Way>} */ found, /** @type {string} */ key) {
  const steps = [];
  const file = (/** @type {string} */ specifier) => (world.files.get(specifier) || { name: specifier }).name;
  for (let at = found.get(key); at;) {
    const before = at.from === null ? undefined : found.get(at.from);
    if (before) {
      const other = before.specifier === at.specifier ? '' : ` of ${file(at.specifier)}`;
      steps.unshift(`'${at.name}'${other}`);
    } else {
      const where = at.entry === at.specifier ? '' : ` (${file(at.specifier)})`;
      steps.unshift(`${file(at.entry || at.specifier)} exports '${at.as || at.name}'${where}`);
    }
    at = before;
  }
  return steps.join(' -> ');
}

module.exports = { told, ways };
