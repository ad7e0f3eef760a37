'use strict';
// What the public face of a declaration refers to: its types, heritage and signatures, and the values of which no type is
// written. Not what a skeleton drops: bodies, values behind types, the contents of patterns, decorators.
//
// A dependency is `[dep, namespace]`, as docs/FORMATS.md has it.

const { partsOf, variantOf } = require('../tree/walk.js');
const { typeNamedBy } = require('./asserted-types.js');

/** @typedef {import('./types').Namespace} Namespace */
/** @typedef {import('./types').Dep} Dep */
/** @typedef {import('./types').Dependency} Dependency */

const VALUE = 'Value';
const TYPE = 'Type_';

/** A list of dependencies without duplicates. */
class Dependencies {
  constructor(/** @type {number} */ unresolved) {
    this.unresolved = unresolved;
    /** @type {Map<string, Dependency>} */
    this.found = new Map();
  }

  add(/** @type {Dep} */ dep, /** @type {Namespace} */ namespace) {
    const key = JSON.stringify([dep, namespace]);
    if (!this.found.has(key)) this.found.set(key, [dep, namespace]);
  }

  ident(/** @type {{ sym: string, ctxt?: number }} */ node, /** @type {Namespace} */ namespace) {
    if (node.ctxt && node.ctxt !== this.unresolved) this.add({ Id: [node.sym, node.ctxt] }, namespace);
  }

  qualified(/** @type {{ sym: string, ctxt?: number }} */ node, /** @type {string[]} */ parts, /** @type {Namespace} */ namespace) {
    if (node.ctxt && node.ctxt !== this.unresolved) this.add({ QualifiedId: [[node.sym, node.ctxt], parts] }, namespace);
  }

  list() {
    return [...this.found.values()];
  }
}

// ---- types

/**
 * A name with dots: its first identifier and the names behind it.
 *
 * @returns {{ first: forms.Ident, parts: string[] }}
 */
function entityParts(/** @type {forms.TsEntityName} */ choice) {
  /** @type {string[]} */
  const parts = [];
  let at = choice;
  while (at.TsQualifiedName) {
    parts.unshift(at.TsQualifiedName.right.sym);
    at = at.TsQualifiedName.left;
  }
  return { first: at.Ident, parts };
}

function entity(/** @type {Dependencies} */ d, /** @type {forms.TsEntityName} */ choice, /** @type {Namespace} */ namespace) {
  const { first, parts } = entityParts(choice);
  if (parts.length) d.qualified(first, parts, namespace);
  else d.ident(first, namespace);
}

function importType(/** @type {Dependencies} */ d, /** @type {forms.TsImportType} */ node) {
  const parts = [];
  if (node.qualifier) {
    const { first, parts: rest } = entityParts(node.qualifier);
    parts.push(first.sym, ...rest);
  }
  d.add({ ImportType: [node.arg.value, parts] }, 'Both');
  walk(d, node.type_args);
}

function query(/** @type {Dependencies} */ d, /** @type {forms.TsTypeQuery} */ node) {
  if (node.expr_name.Import) importType(d, node.expr_name.Import);
  else entity(d, node.expr_name.TsEntityName, VALUE);
  walk(d, node.type_args);
}

/** Everything that a part of a tree refers to, which stands as it is written. */
function walk(/** @type {Dependencies} */ d, /** @type {object | null | undefined} */ part) {
  if (!part) return;
  const node = /** @type {forms.Part} */ (part);
  if (node.TsTypeRef) {
    entity(d, node.TsTypeRef.type_name, TYPE);
    walk(d, node.TsTypeRef.type_params);
  } else if (node.TsTypeQuery) {
    query(d, node.TsTypeQuery);
  } else if (node.TsImportType) {
    importType(d, node.TsImportType);
  } else if (node.Member) {
    member(d, node.Member, VALUE);
  } else if (node.Ident && 'sym' in node.Ident) {
    d.ident(node.Ident, VALUE);
  } else {
    for (const it of partsOf(node)) walk(d, it);
  }
}

// ---- values

/**
 * A chain of names, `a.b.c`, or null.
 *
 * @returns {{ first: forms.Ident, parts: string[] } | null}
 */
function chainParts(/** @type {forms.Expr} */ choice) {
  /** @type {string[]} */
  const parts = [];
  let at = choice;
  while (at.Member && at.Member.prop.Ident) {
    parts.unshift(at.Member.prop.Ident.sym);
    at = at.Member.obj;
  }
  return at.Ident ? { first: at.Ident, parts } : null;
}

function member(/** @type {Dependencies} */ d, /** @type {forms.MemberExpr} */ node, /** @type {Namespace} */ namespace) {
  const chain = chainParts({ Member: node });
  if (chain) {
    d.qualified(chain.first, chain.parts, namespace);
    return;
  }
  value(d, node.obj);
  if (node.prop.Computed) value(d, node.prop.Computed.expr);
}

function isGlobal(/** @type {Dependencies} */ d, /** @type {forms.Expr} */ choice, /** @type {string} */ name) {
  return Boolean(choice && choice.Ident && choice.Ident.sym === name && choice.Ident.ctxt === d.unresolved);
}

/**
 * The argument of `Object.freeze(x)`, or null.
 *
 * @returns {forms.Expr | null}
 */
function frozen(/** @type {Dependencies} */ d, /** @type {forms.CallExpr} */ node) {
  const callee = node.callee.Expr && node.callee.Expr.Member;
  const [argument, ...more] = node.args || [];
  if (!callee || more.length || !argument || argument.spread) return null;
  return isGlobal(d, callee.obj, 'Object') && callee.prop.Ident && callee.prop.Ident.sym === 'freeze' ? argument.expr : null;
}

function property(/** @type {Dependencies} */ d, /** @type {forms.PropOrSpread} */ choice) {
  if (choice.Spread) {
    value(d, choice.Spread.expr);
    return;
  }
  const { Shorthand, KeyValue, Assign } = choice.Prop;
  if (Shorthand) d.ident(Shorthand, VALUE);
  if (KeyValue) {
    if (KeyValue.key.Computed) value(d, KeyValue.key.Computed.expr);
    value(d, KeyValue.value);
  }
  if (Assign) value(d, Assign.value);
}

/**
 * Follows some expressions of a value.
 *
 * @param {('arg' | 'expr' | 'left' | 'right' | 'test' | 'cons' | 'alt')[]} fields
 */
function followed(...fields) {
  return (/** @type {Dependencies} */ d, /** @type {forms.Part} */ node) => {
    for (const it of fields) value(d, /** @type {forms.Expr} */ (node[it]));
  };
}

/** @type {{ [V in keyof forms.ExprVariants]?: (d: Dependencies, node: forms.ExprVariants[V]) => void }} */
const VALUES = {
  Ident: (/** @type {Dependencies} */ d, node) => d.ident(node, VALUE),
  Array: (/** @type {Dependencies} */ d, node) => {
    for (const it of node.elems || []) if (it) value(d, it.expr);
  },
  Object: (/** @type {Dependencies} */ d, node) => {
    for (const it of node.props || []) property(d, it);
  },
  Unary: followed('arg'),
  Update: followed('arg'),
  Await: followed('arg'),
  Paren: followed('expr'),
  TsNonNull: followed('expr'),
  TsConstAssertion: followed('expr'),
  Bin: followed('left', 'right'),
  Cond: followed('test', 'cons', 'alt'),
  Member: (/** @type {Dependencies} */ d, node) => member(d, node, VALUE),
  TsAs: (/** @type {Dependencies} */ d, node) => walk(d, node.type_ann),
  TsTypeAssertion: (/** @type {Dependencies} */ d, node) => walk(d, node.type_ann),
  TsSatisfies: (/** @type {Dependencies} */ d, node) => {
    value(d, node.expr);
    walk(d, node.type_ann);
  },
  Call: (/** @type {Dependencies} */ d, node) => value(d, frozen(d, node)),
  New: (/** @type {Dependencies} */ d, node) => {
    value(d, node.callee);
    for (const it of node.args || []) value(d, it.expr);
  },
  Tpl: (/** @type {Dependencies} */ d, node) => {
    for (const it of node.exprs || []) value(d, it);
  },
  Fn: (/** @type {Dependencies} */ d, node) => signature(d, node.function),
  Arrow: (/** @type {Dependencies} */ d, node) => {
    signature(d, node);
    if (!node.return_type && node.body.Expr) value(d, node.body.Expr);
  },
};

/** A value of which no type is written, as far as a skeleton may keep it. */
function value(/** @type {Dependencies} */ d, /** @type {forms.Expr | null | undefined} */ choice) {
  if (!choice) return;
  const [variant, node] = variantOf(choice);
  const follow = /** @type {((d: Dependencies, node: object) => void) | undefined} */ (VALUES[variant]);
  if (follow) follow(d, node);
}

// ---- functions

/** The written type of a pattern. */
function typeOf(/** @type {forms.Pat} */ pattern) {
  const [, node] = variantOf(pattern);
  return 'type_ann' in node ? node.type_ann : null;
}

function parameter(/** @type {Dependencies} */ d, /** @type {forms.Pat | forms.Param | forms.TsParamPropParam} */ choice) {
  const node = /** @type {forms.Pat} */ ('pat' in choice ? choice.pat : choice);
  if (node.Assign) {
    const { left, right } = node.Assign;
    const typed = typeOf(left);
    if (typed) walk(d, typed);
    else value(d, right);
    return;
  }
  walk(d, typeOf(node));
  if (node.Rest) parameter(d, node.Rest.arg);
}

/** What the parameters and the return type of a function refer to: the written one, or that which its body asserts. */
function signature(/** @type {Dependencies} */ d, /** @type {forms.Function | forms.ArrowExpr | forms.Constructor} */ node) {
  const { type_params, return_type } = /** @type {forms.Part} */ (node);
  walk(d, type_params);
  for (const it of node.params || []) {
    if ('TsParamProp' in it && it.TsParamProp) parameter(d, it.TsParamProp.param);
    else parameter(d, 'Param' in it && it.Param ? it.Param : /** @type {forms.Pat | forms.Param} */ (it));
  }
  walk(d, return_type || typeNamedBy(node));
}

/** A type if it is written, else the value. */
function typeOrValue(/** @type {Dependencies} */ d, /** @type {forms.TsTypeAnn | null | undefined} */ annotation, /** @type {forms.Expr | null | undefined} */ initial) {
  if (annotation) walk(d, annotation);
  else value(d, initial);
}

/** A name in an `implements` or an interface's `extends`. */
function heritageName(/** @type {Dependencies} */ d, /** @type {forms.TsExprWithTypeArgs} */ node) {
  const chain = chainParts(node.expr);
  if (!chain) value(d, node.expr);
  else if (chain.parts.length) d.qualified(chain.first, chain.parts, TYPE);
  else d.ident(chain.first, TYPE);
  walk(d, node.type_args);
}

function superClass(/** @type {Dependencies} */ d, /** @type {forms.Class} */ node) {
  if (node.super_class) value(d, node.super_class);
  walk(d, node.super_type_params);
}

module.exports = { Dependencies, walk, value, signature, parameter, typeOrValue, heritageName, superClass, entityParts };
