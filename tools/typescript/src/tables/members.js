'use strict';
// The symbols of members: static ones are exports of their class, others members.

const deps = require('./dependencies.js');
const { variantOf } = require('../tree/walk.js');
const { withoutMark } = require('../skeleton/restored.js');

/** @typedef {import('./dependencies.js').Dependencies} Dependencies */
/** @typedef {import('./types').GrowingSymbol} GrowingSymbol */
/** @typedef {import('./symbols.js').Tables} Tables */
/** @typedef {import('./types').Declaration} Declaration */
/** @typedef {import('./types').ClassMember} ClassMember */

const BOTH = { value: true, type_: true };

/** The name of a property that a key is; nothing of that of an index signature. */
function propNameOf(/** @type {forms.Part} */ key) {
  return /** @type {Partial<forms.PropNameVariants>} */ (key.Public || key);
}

/** @returns {string | null} */
function keyName(/** @type {forms.Part} */ key) {
  const inner = propNameOf(key);
  if (inner.Ident) return withoutMark(inner.Ident.sym);
  if (inner.Str) return inner.Str.value;
  if (inner.Num) return inner.Num.raw;
  if (inner.BigInt) return inner.BigInt.raw;
  const computed = inner.Computed && inner.Computed.expr.Lit && inner.Computed.expr.Lit.Str;
  return computed ? computed.value : null;
}

function memberName(/** @type {GrowingSymbol} */ owner, /** @type {string | null} */ name, /** @type {boolean} */ isStatic) {
  if (name === null) return null;
  const before = isStatic ? owner.qualified_name : `${owner.qualified_name}.prototype`;
  return `${before}.${name}`;
}

/**
 * The symbol of a member: declarations of one name share it.
 *
 * @returns {GrowingSymbol}
 */
function memberSymbol(/** @type {Tables} */ t, /** @type {GrowingSymbol} */ owner, /** @type {string | null} */ name, /** @type {boolean} */ isStatic, /** @type {string | null} */ qualified) {
  if (name !== null) {
    const known = isStatic ? owner.exports.get(name) : owner.members.find((id) => t.symbols[id].maybe_name === name);
    if (known !== undefined) return t.symbols[known];
  }
  const symbol = t.newSymbol(owner, name === null ? undefined : name, qualified === null ? undefined : qualified);
  if (isStatic && name !== null) owner.exports.set(name, symbol.id);
  else owner.members.push(symbol.id);
  return symbol;
}

/**
 * What a member is made of: its key, whether it has a body, and what it refers to by a call.
 *
 * @returns {ClassMember | null}
 */
function classMember(/** @type {forms.ClassMember} */ choice) {
  const [variant, node] = variantOf(choice);
  switch (variant) {
    case 'Constructor':
      return { node, key: node.key, marks: { has_body: Boolean(node.body) }, follow: (/** @type {Dependencies} */ d) => deps.signature(d, node) };
    case 'Method': {
      const marks = node.kind === 'Method' ? { has_body: Boolean(node.function.body) } : {};
      return { node, key: node.key, marks, follow: (/** @type {Dependencies} */ d) => deps.signature(d, node.function) };
    }
    case 'ClassProp':
      return { node, key: node.key, marks: {}, follow: (/** @type {Dependencies} */ d) => deps.typeOrValue(d, node.type_ann, node.value) };
    case 'AutoAccessor':
      if (node.key.Private) return null;
      return { node, key: node.key, marks: {}, follow: (/** @type {Dependencies} */ d) => deps.typeOrValue(d, node.type_ann, node.value) };
    case 'TsIndexSignature':
      return { node, key: {}, marks: {}, follow: (/** @type {Dependencies} */ d) => [node.params, node.type_ann].forEach((it) => deps.walk(d, it)) };
    default:
      return null;
  }
}

function followKey(/** @type {Dependencies} */ d, /** @type {forms.Part} */ key) {
  const inner = propNameOf(key);
  if (inner.Computed) deps.value(d, inner.Computed.expr);
}

/** What a declaration refers to. */
function depsOf(/** @type {Declaration} */ { kind: { Definition: it } }) {
  return (it && it.deps) || [];
}

function fillMember(/** @type {Tables} */ t, /** @type {GrowingSymbol} */ owner, /** @type {ClassMember} */ found, /** @type {Declaration} */ classDecl, /** @type {boolean} */ isAmbient) {
  const { node, key, marks, follow } = found;
  const name = keyName(key);
  const isStatic = Boolean(node.is_static);
  const symbol = memberSymbol(t, owner, name, isStatic, memberName(owner, name, isStatic));
  const isPrivate = node.accessibility === 'Private';
  if (isPrivate) symbol.is_private_member = true;
  const both = (/** @type {Dependencies} */ d) => {
    followKey(d, key);
    follow(d);
  };
  t.define(symbol, node.span, BOTH, { is_member: true }, isPrivate && !isAmbient ? () => {} : both, marks);
  // A private member leads to nothing. One of an ambient class stands as it is written, so its class refers to what it does.
  if (isPrivate && isAmbient) depsOf(classDecl).push(...depsOf(symbol.decls[symbol.decls.length - 1]));
}

function parameterProperty(/** @type {Tables} */ t, /** @type {GrowingSymbol} */ owner, /** @type {forms.TsParamProp} */ node) {
  const pattern = node.param.Assign ? node.param.Assign.left : node.param;
  if (!pattern.Ident) return;
  const name = pattern.Ident.id.sym;
  const symbol = memberSymbol(t, owner, name, false, memberName(owner, name, false));
  if (node.accessibility === 'Private') symbol.is_private_member = true;
  t.define(symbol, node.span, BOTH, { is_member: true }, (/** @type {Dependencies} */ d) => deps.parameter(d, node.param));
}

/** Fills in the members of a class, and the parameter properties of its constructors. */
function fillClass(/** @type {Tables} */ t, /** @type {GrowingSymbol} */ symbol, /** @type {forms.Class} */ node, /** @type {Declaration} */ decl, /** @type {boolean} */ isAmbient) {
  for (const it of node.body || []) {
    const found = classMember(it);
    if (found) fillMember(t, symbol, found, decl, isAmbient);
    const params = it.Constructor ? it.Constructor.params || [] : [];
    for (const param of params) if (param.TsParamProp) parameterProperty(t, symbol, param.TsParamProp);
  }
}

/** @returns {string | null} */
function signatureName(/** @type {forms.Part} */ node) {
  if (node.key === undefined) return null;
  const { Lit: literal, Ident: ident } = /** @type {Partial<forms.ExprVariants>} */ (node.key);
  const number = literal && (literal.Num || literal.BigInt);
  if (literal) return literal.Str ? literal.Str.value : number ? number.raw : null;
  return !node.computed && ident ? ident.sym : null;
}

/** Fills in the members of an interface. */
function fillInterface(/** @type {Tables} */ t, /** @type {GrowingSymbol} */ symbol, /** @type {forms.TsInterfaceDecl} */ node) {
  for (const choice of node.body.body || []) {
    /** @type {forms.Part & { span: forms.Span }} */
    const it = variantOf(choice)[1];
    const name = signatureName(it);
    const member = memberSymbol(t, symbol, name, false, name === null ? null : `${symbol.qualified_name}.${name}`);
    t.define(member, it.span, BOTH, { is_member: true }, (/** @type {Dependencies} */ d) => {
      if (it.computed) deps.value(d, /** @type {forms.Expr} */ (it.key));
      for (const part of [it.type_params, it.params, it.type_ann]) deps.walk(d, /** @type {forms.Part} */ (part));
    });
  }
}

module.exports = { fillClass, fillInterface, keyName };
