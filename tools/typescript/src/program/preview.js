'use strict';
// Skeletons of the modules that nothing is wrong with, of packages of which something is wrong elsewhere: a preview. The program is asked again, without the
// items that its messages point to. What these items refer to stays public, so far as a reference was found.

const { namesIn } = require('../messages/codes.js');
const { sourceOf } = require('./request.js');
const { Names } = require('../skeleton/modules.js');
const { partsOf, variantOf } = require('../tree/walk.js');

/** @typedef {import('./types').World} World */
/** @typedef {import('./types').Request} Request */
/** @typedef {import('./types').Answer} Answer */
/** @typedef {import('../tables/types').Symbol} Symbol */
/** @typedef {import('./types').EsmModule} EsmModule */
/** @typedef {import('./types').Diagnostic} Diagnostic */
/** @typedef {import('../tables/types').Dep} Dep */

const ROUNDS = 10;
// What is wrong with a reference is reported by the tables; all else by the tree.
const REFERENCES = new Set(['not-found-reference', 'unsupported-complex-reference', 'unsupported-private-member-reference']);
const JAVASCRIPT = new Set(['unsupported-nested-javascript', 'unsupported-javascript-entrypoint']);

/** The place of an item, and whether a place lies in it. */
const spanOf = (/** @type {forms.ModuleItem} */ item) => {
  /** @type {forms.Part} */
  const node = variantOf(variantOf(item)[1])[1];
  const [inner] = partsOf(node);
  return node.span || /** @type {forms.Span} */ ((inner.function || inner.class || inner).span);
};
const holds = (/** @type {forms.Span} */ [start, end], /** @type {forms.Span} */ [from, to]) => start <= from && to <= end;

/** A dependency of the tables as a name with dots. */
function dependencyName(/** @type {Dep} */ dep) {
  /** @type {string[]} */
  const texts = [];
  JSON.stringify(dep, (_, it) => {
    if (typeof it === 'string') texts.push(it);
    return it;
  });
  return texts.join('.');
}

/** The name of the declaration at the top of a module that a symbol belongs to. */
function topName(/** @type {EsmModule} */ module, /** @type {Symbol} */ symbol) {
  if (symbol.qualified_name !== undefined) return symbol.qualified_name.split('.')[0];
  const [own, parent] = [symbol.id, symbol.parent_id].map((id) => (module.swc_ids || []).find((it) => it[1] === id));
  return own ? own[0][0] : parent ? parent[0][0] : '';
}

/** A request whose parts are taken away. The request that it is made of stays as it is. */
class Lessened {
  constructor(/** @type {Request} */ request) {
    this.request = { ...request, graph: { ...request.graph } };
    /** @type {Set<string>} */
    this.unknown = new Set();
    /** @type {Set<string>} */
    this.wrong = new Set();
  }

  /** Takes away what a diagnostic points to. Answers whether there was something. */
  without(/** @type {Diagnostic} */ { code, specifier, range, message }) {
    if (JAVASCRIPT.has(code) || !range) return this.withoutModule(specifier);
    if (!REFERENCES.has(code)) return this.change((it) => it === specifier, (module) => this.withoutItem(module, range));
    // The message names what was asked for, and its place is where that was sought, in whatever module.
    const { name } = namesIn(code, message);
    const last = (/** @type {string} */ text) => text.split('.').pop();
    const all = () => true;
    return this.change(all, (module) => this.withoutReferences(module, (it) => it === name))
      || this.change(all, (module) => this.withoutReferences(module, (it) => last(it) === last(name)));
  }

  change(/** @type {(specifier: string) => boolean} */ isAsked, /** @type {(module: EsmModule) => EsmModule | null} */ make) {
    let isChanged = false;
    this.request.modules = this.request.modules.map(([name, module]) => {
      const made = isAsked(name) && module.Esm ? make(module.Esm) : null;
      isChanged = isChanged || Boolean(made);
      return [name, made ? { Esm: made } : module];
    });
    return isChanged;
  }

  /** @returns {EsmModule | null} */
  withoutItem(/** @type {EsmModule} */ module, /** @type {forms.Span} */ range) {
    const source = sourceOf(module.source);
    const { Module: own, Script: script } = source.program;
    /** @type {forms.ModuleItem[]} */
    const items = script ? (script.body || []).map((it) => ({ Stmt: it })) : own.body || [];
    const isFound = items.map((it) => holds(spanOf(it), range));
    const found = items.filter((_, at) => isFound[at]);
    if (!found.length) return null;
    for (const name of new Names({ body: found }).declared.keys()) this.unknown.add(`${module.specifier}\n${name}`);
    const isLeft = (/** @type {unknown} */ _, /** @type {number} */ at) => !isFound[at];
    /** @type {forms.Program} */
    const program = script ? { Script: { ...script, body: (script.body || []).filter(isLeft) } } : { Module: { ...own, body: (own.body || []).filter(isLeft) } };
    return { ...module, source: { ...source, program } };
  }

  /**
   * A module without the dependencies of some names. What has such a dependency is unknown.
   *
   * @returns {EsmModule | null}
   */
  withoutReferences(/** @type {EsmModule} */ module, /** @type {(name: string) => boolean} */ isGone) {
    /** @type {Set<string>} */
    const gone = new Set();
    const less = (/** @type {Symbol} */ symbol) => (/** @type {import('../tables/types').Declaration} */ decl) => {
      const node = decl.kind.Definition;
      if (!node || !node.deps) return decl;
      const deps = node.deps.filter(([dep]) => !isGone(dependencyName(dep)));
      if (deps.length === node.deps.length) return decl;
      gone.add(topName(module, symbol));
      return { ...decl, kind: { Definition: { ...node, deps } } };
    };
    const symbols = module.symbols.map((symbol) => ({ ...symbol, decls: (symbol.decls || []).map(less(symbol)) }));
    for (const name of gone) this.unknown.add(`${module.specifier}\n${name}`);
    if (gone.size) this.wrong.add(module.specifier);
    return gone.size ? { ...module, symbols } : null;
  }

  /** A module that has no types leads out of the folder now, and is no entry point. */
  withoutModule(/** @type {string} */ specifier) {
    const { graph, workspace_members: members } = this.request;
    const known = graph.modules.some(([name, kind]) => name === specifier && kind !== 'External');
    graph.modules = graph.modules.map(([name, kind]) => [name, name === specifier ? 'External' : kind]);
    const isOther = (/** @type {string} */ base) => (/** @type {[string, string]} */ [, file]) => new URL(file, base).href !== specifier;
    this.request.workspace_members = members.map((it) => ({ ...it, exports: it.exports.filter(isOther(it.base)) }));
    const count = (/** @type {Request['workspace_members']} */ all) => all.reduce((sum, it) => sum + it.exports.length, 0);
    return known || count(members) !== count(this.request.workspace_members);
  }
}

/** The diagnostics of some answers, each once. */
function diagnosticsOf(/** @type {Answer[]} */ answers) {
  return [...new Map(answers.flatMap(([, answer]) => answer.Err || []).map((it) => [JSON.stringify(it), it])).values()];
}

/**
 * What is right of a folder of which something is wrong: `skeletons` of the modules that nothing is wrong with, `partial` with those of the others, as far as
 * they go, and `unknown`, the declarations that are not in them, as `specifier\nname`. Null where that is not known. `ask(request)` answers for the program.
 *
 * @returns {Promise<import('./types').Preview | null>}
 */
async function previewOf(/** @type {Request} */ request, /** @type {Answer[]} */ answers, /** @type {(request: Request) => Promise<Answer[]>} */ ask) {
  const less = new Lessened(request);
  const { wrong } = less;
  let now = answers;
  for (let round = 0; round < ROUNDS; round++) {
    const found = diagnosticsOf(now);
    if (!found.length) break;
    for (const { specifier } of found) wrong.add(specifier);
    if (!found.map((it) => less.without(it)).some(Boolean)) return null;
    now = await ask(less.request);
  }
  if (diagnosticsOf(now).length) return null;
  const partial = new Map(now.map(([specifier, { Ok }]) => /** @type {const} */ ([specifier, /** @type {import('./types').Skeleton} */ (Ok)])));
  return { skeletons: new Map([...partial].filter(([specifier]) => !wrong.has(specifier))), partial, unknown: less.unknown };
}

/**
 * A folder with the skeletons of its preview too, in place of which those with something wrong stand as far as they go.
 *
 * @returns {World}
 */
function withPartial(/** @type {World} */ world) {
  return world.preview ? { ...world, skeletons: new Map([...world.preview.partial, ...world.skeletons]) } : world;
}

module.exports = { previewOf, withPartial };
