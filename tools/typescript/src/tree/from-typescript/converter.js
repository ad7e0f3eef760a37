'use strict';
// What all parts of the conversion share: places, scopes, errors, and the making of forms.

const { ts } = require('../../compiler/typescript.js');
const { partsOf } = require('../walk.js');
const { Offsets } = require('../offsets.js');
const { Scope, bindBody, UNRESOLVED, TOP } = require('./scopes.js');

/** @typedef {import('../types').TreeOptions} TreeOptions */

const { SyntaxKind: K } = ts;

/**
 * Kinds that compilers have from a later version on.
 *
 * @type {{ AccessorKeyword?: ts.SyntaxKind, DeferKeyword?: ts.SyntaxKind, SatisfiesExpression?: ts.SyntaxKind }}
 */
const NEWER = /** @type {Record<string, ts.SyntaxKind | undefined>} */ (/** @type {unknown} */ (K));

// What the parser marks as ambient, a flag that the compiler keeps for itself.
const { Ambient: AMBIENT = 0 } = /** @type {{ Ambient?: number }} */ (/** @type {unknown} */ (ts.NodeFlags));

/**
 * A form without the members that have their defaults, which the program fills in.
 *
 * @template {object} T
 * @param {T} fields
 * @returns {T}
 */
function form(fields) {
  /** @type {Record<string, unknown>} */
  const made = {};
  for (const [name, value] of Object.entries(fields)) {
    if (value === null || value === undefined || value === false) continue;
    if (Array.isArray(value) && value.length === 0) continue;
    made[name] = value;
  }
  return /** @type {T} */ (made);
}

/**
 * A choice of a variant that is known at run time alone.
 *
 * @template {string} K
 * @template T
 * @param {K} variant
 * @param {T} content
 */
function oneOf(variant, content) {
  return /** @type {forms.OneOf<Record<K, T>>} */ ({ [variant]: content });
}

/**
 * What makes a form of a node by its kind; undefined where there is nothing.
 *
 * @template R
 * @param {import('./nodes').Converters<R>} converters
 * @param {ts.Node} node
 */
function converterOf(converters, node) {
  return /** @type {Record<number, (c: Converter, node: ts.Node) => R>} */ (converters)[node.kind];
}

class Converter {
  constructor(/** @type {ts.SourceFile} */ sourceFile, /** @type {TreeOptions} */ options = {}) {
    this.file = sourceFile;
    this.text = sourceFile.text;
    this.offsets = new Offsets(this.text);
    this.short = Boolean(options.short);
    // Whether a signature is converted, which has no body.
    this.isSignature = false;
    this.namesReturns = options.rules !== 'deno';
    /** @type {import('../types').TreeError[]} */
    this.errors = [];
    /** @type {import('../types').TreeFault[]} */
    this.faults = [];
    /** @type {import('../types').TreeSource[]} */
    this.sources = [];
    this.lastScope = UNRESOLVED;
    // What stands beside the node that is converted: the statements of a body, or the members of a class or an object. The compiler's nodes know none around them.
    /** @type {readonly ts.Node[]} */
    this.list = [];
    // What the statement that is converted assigns to.
    /** @type {ts.Node | null} */
    this.assigned = null;
    /** @type {Map<ts.Node, { block: ts.Node, scope: Scope, shown: Scope }>} */
    this.blocks = new Map();
    /** @type {Map<number, Scope>} */
    this.scopes = new Map();
    this.scope = this.newScope(null);
    bindBody(this.scope, sourceFile.statements);
  }

  newScope(/** @type {Scope | null} */ parent) {
    this.lastScope += 1;
    const scope = new Scope(this.lastScope, parent);
    this.scopes.set(this.lastScope, scope);
    return scope;
  }

  /** Whether the value of a node with an explicit type is cut away. Skeletons keep what is ambient, and signatures, as they are. */
  cutsValue(/** @type {ts.Node} */ { flags }) {
    return this.short && !this.isSignature && (flags & AMBIENT) === 0;
  }

  /**
   * Calls back where a signature is converted.
   *
   * @template R
   * @param {() => R} call
   */
  ofSignature(call) {
    const outer = this.isSignature;
    this.isSignature = true;
    try {
      return call();
    } finally {
      this.isSignature = outer;
    }
  }

  /** The number of a scope for the form that it is of, which is asked for by no rule. */
  numberOf(/** @type {Scope} */ { number }) {
    return this.short ? undefined : number;
  }

  /**
   * Calls back within a fresh scope.
   *
   * @template R
   * @param {(scope: Scope) => R} call
   */
  within(call, scope = this.newScope(this.scope)) {
    const outer = this.scope;
    this.scope = scope;
    try {
      return call(scope);
    } finally {
      this.scope = outer;
    }
  }

  /**
   * What a call makes of each node of a list.
   *
   * @template {ts.Node} N
   * @template R
   * @param {readonly N[]} list
   * @param {(node: N) => R} call
   */
  each(list, call) {
    const outer = this.list;
    this.list = list;
    const made = list.map(call);
    this.list = outer;
    return made;
  }

  start(/** @type {ts.Node} */ node) {
    return ts.getTokenPosOfNode(node, this.file, false);
  }

  /** @returns {forms.Span} */
  range(/** @type {number} */ start, /** @type {number} */ end) {
    return [this.offsets.of(start), this.offsets.of(end)];
  }

  span(/** @type {ts.Node} */ node) {
    return this.range(this.start(node), node.end);
  }

  /** The written text of a node. */
  written(/** @type {ts.Node} */ node) {
    return this.text.slice(this.start(node), node.end);
  }

  /** Where the text goes on behind an offset, past blanks and comments. */
  after(/** @type {number} */ offset) {
    return ts.skipTrivia(this.text, offset);
  }

  /** What stands for a value that is cut away. It names no type. */
  /** @returns {forms.Expr} */
  noType(/** @type {ts.Node} */ node) {
    return { This: { span: this.span(node) } };
  }

  /** A value that no skeleton keeps, and that names no type. */
  /** @returns {forms.Expr} */
  hidden(/** @type {ts.Node} */ node) {
    return { Call: { span: this.span(node), callee: { Expr: this.noType(node) } } };
  }

  /** A value of which a skeleton may be made, or a hidden one, where the value has a name whose type no skeleton says. */
  told(/** @type {forms.Expr} */ value, /** @type {ts.Node} */ node) {
    const isUnsaid = (/** @type {forms.Ident} */ { sym, ctxt = 0 }, /** @type {boolean} */ isAsserted) => {
      const scope = ctxt > TOP ? this.scopes.get(ctxt) : undefined;
      return scope !== undefined && scope.unsaid.has(sym) && !(isAsserted && scope.unsaid.get(sym));
    };
    /** @type {(it: forms.Part, isAsserted: boolean) => boolean} */
    const has = (it, isAsserted) => {
      const name = it.Ident || it.Shorthand;
      if (name && 'sym' in name && isUnsaid(name, isAsserted)) return true;
      const asserted = it.TsAs || it.TsTypeAssertion || it.TsNonNull;
      if (asserted && has(asserted.expr, true)) return true;
      return partsOf(asserted ? { ...asserted, expr: null } : it).some((each) => has(each, isAsserted));
    };
    return this.short && !this.isSignature && has(value, false) ? this.hidden(node) : value;
  }

  /** An error at a node: the tree has no such form, or the text is none of TypeScript's. */
  refuse(/** @type {ts.Node} */ node, /** @type {string} */ message) {
    const start = this.start(node);
    this.errors.push({ offset: start, position: this.offsets.of(start), message });
  }

  /** What is wrong at a node with a form that is read all the same. */
  fault(/** @type {ts.Node} */ node, /** @type {string} */ message) {
    this.faults.push({ offset: this.start(node), length: node.end - this.start(node), message });
  }

  /**
   * What stands for a node that is refused: its tree is thrown away.
   *
   * @template R
   * @param {ts.Node} node
   * @returns {R}
   */
  invalid(node) {
    return /** @type {R} */ (/** @type {unknown} */ ({ Invalid: { span: this.span(node) } }));
  }

  /**
   * Refuses a kind of node that is not known here.
   *
   * @template R
   * @returns {R}
   */
  unknown(/** @type {ts.Node} */ node, /** @type {string} */ place) {
    this.refuse(node, `no form for ${K[node.kind]} as ${place}`);
    return this.invalid(node);
  }
}

module.exports = { Converter, AMBIENT, NEWER, converterOf, form, oneOf, TOP, UNRESOLVED };
