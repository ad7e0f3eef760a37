'use strict';
// The request of `fast-check build` as JSON, whose parts may be JSON already.

/** @typedef {import('./types').Request} Request */
/** @typedef {import('./types').RequestModule} RequestModule */
/** @typedef {import('./types').Source} Source */

/** A value that is JSON already. */
class JsonText {
  constructor(/** @type {string} */ text) {
    this.text = text;
  }

  /** @returns {unknown} */
  toJSON() {
    return JSON.parse(this.text);
  }
}

/** The source of a module, of one that is JSON already what it says. */
function sourceOf(/** @type {Source | JsonText} */ value) {
  return value instanceof JsonText ? /** @type {Source} */ (value.toJSON()) : value;
}

function textOf(/** @type {unknown} */ value) {
  return value instanceof JsonText ? value.text : JSON.stringify(value);
}

/**
 * A request with other modules, which are made where they are asked for.
 *
 * @param {Omit<Request, 'modules'>} request
 * @param {() => RequestModule[]} make
 * @returns {Request}
 */
function withModules({ graph, aliases, workspace_members, provider, pending, first }, make) {
  /** @type {RequestModule[] | null} */
  let made = null;
  return {
    graph,
    get modules() {
      made = made || make();
      return made;
    },
    aliases, workspace_members, provider, pending, first,
  };
}

/** An object as JSON, each member by a call. */
function objectText(/** @type {object} */ object, /** @type {(value: unknown, name: string) => string} */ memberText) {
  const members = Object.entries(object).filter(([, value]) => value !== undefined);
  return `{${members.map(([name, value]) => `${JSON.stringify(name)}:${memberText(value, name)}`).join(',')}}`;
}

/** A module of a request, `[specifier, {Esm: ..}]`, as JSON. */
function moduleText(/** @type {RequestModule} */ [specifier, choice]) {
  return `[${JSON.stringify(specifier)},${objectText(choice, (module) => objectText(/** @type {object} */ (module), textOf))}]`;
}

/** A request as JSON. */
function requestText(/** @type {Request} */ request) {
  return objectText(request, (value, name) => (name === 'modules' ? `[${request.modules.map(moduleText).join(',')}]` : JSON.stringify(value)));
}

// The beginning of a source whose tree is a module's, as it is written here.
const MODULE = /^(\{"media_type":"\w+","text":)"(?:[^"\\]|\\.)*","program":\{"Module":/;
const CONTEXT = /"unresolved_context":\d+\}$/;

/** A source without its text, its statements and its comments. */
function emptied(/** @type {Source | JsonText} */ source) {
  const text = textOf(source);
  const [, head] = MODULE.exec(text) || [];
  const [context] = CONTEXT.exec(text) || [];
  if (!head || !context) return source;
  return new JsonText(`${head}"","program":{"Module":{"span":[0,0],"body":[],"shebang":null}},"comments":{"leading":[],"trailing":[]},${context}`);
}

/**
 * A request in which only the modules of these specifiers have their trees. The program finds the same public ranges by it, since these follow from the tables of
 * all modules, and answers the same of these modules; of the others it answers nothing of use.
 *
 * @param {Request} request
 * @param {Set<string>} specifiers
 * @returns {Request}
 */
function withTreesOf(request, specifiers) {
  return withModules(request, () => request.modules.map(([specifier, module]) => {
    if (!module.Esm || specifiers.has(specifier)) return [specifier, module];
    return [specifier, { Esm: { ...module.Esm, source: emptied(module.Esm.source) } }];
  }));
}

module.exports = { withModules, withTreesOf, JsonText, requestText, sourceOf, textOf };
