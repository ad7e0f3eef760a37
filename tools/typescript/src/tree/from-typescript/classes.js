'use strict';
// Functions and classes, and the members of classes.

const { hasModifier, modifiersOf } = require('../../compiler/modifiers.js');
const { ts } = require('../../compiler/typescript.js');
const { NEWER, converterOf, form } = require('./converter.js');
const names = require('./names.js');
const patterns = require('./patterns.js');
const types = require('./types.js');
const { expression, propName, heritageName, isAsync } = require('./expressions.js');
const { bodyOf, functionBody, constructorBody } = require('./statements.js');
const { STATIC } = require('../../skeleton/restored.js');

/** @typedef {import('./converter.js').Converter} Converter */
/** @typedef {import('./scopes.js').Scope} Scope */

const { SyntaxKind: K } = ts;

/**
 * Whether a modifier is a decorator.
 *
 * @param {ts.ModifierLike} node
 * @returns {node is ts.Decorator}
 */
function isDecorator(node) {
  return ts.isDecorator(node);
}

/** @returns {forms.Decorator[]} */
function decorators(/** @type {Converter} */ c, /** @type {ts.Node} */ node) {
  return modifiersOf(node).filter(isDecorator).map((it) => ({ span: c.span(it), expr: expression(c, it.expression) }));
}

/**
 * A parameter of a function. `this` stands among the parameters, as swc has it.
 *
 * @returns {forms.Param}
 */
function param(/** @type {Converter} */ c, /** @type {ts.ParameterDeclaration} */ node) {
  if (modifiersOf(node).some((it) => !isDecorator(it))) c.refuse(node, 'a modifier at a parameter that is no property');
  return form({ span: c.span(node), decorators: decorators(c, node), pat: patterns.parameter(c, node) });
}

/**
 * What a function has within its scope, which is entered.
 *
 * @returns {forms.Function}
 */
function functionIn(/** @type {Converter} */ c, /** @type {ts.FunctionLikeDeclaration} */ node, /** @type {Scope} */ scope, span = c.span(node)) {
  types.bindTypeParams(c, node);
  for (const it of node.parameters) patterns.bindParameter(scope, it);
  return form({
    span,
    params: node.parameters.map((it) => param(c, it)),
    ctxt: c.numberOf(scope),
    body: functionBody(c, node),
    is_generator: Boolean(node.asteriskToken),
    is_async: isAsync(node),
    type_params: types.typeParams(c, node),
    return_type: types.annotation(c, node.type),
  });
}

/**
 * A function with a scope of its own.
 *
 * @returns {forms.Function}
 */
function functionOf(/** @type {Converter} */ c, /** @type {ts.FunctionLikeDeclaration} */ node, span = c.span(node)) {
  return c.within((scope) => functionIn(c, node, scope, span));
}

// ---- classes

function heritage(/** @type {{ readonly heritageClauses?: ts.NodeArray<ts.HeritageClause> }} */ node, /** @type {ts.SyntaxKind} */ token) {
  const clause = (node.heritageClauses || []).find((it) => it.token === token);
  return clause ? clause.types : [];
}

/** @returns {forms.TsExprWithTypeArgs} */
function implemented(/** @type {Converter} */ c, /** @type {ts.ExpressionWithTypeArguments} */ node) {
  return form({ span: c.span(node), expr: heritageName(c, node.expression), type_args: types.instantiation(c, node) });
}

/** The private members of a class by whether they are static, with parameter properties. */
function privateNames(/** @type {forms.ClassMember[]} */ members, /** @type {boolean} */ isStatic) {
  const found = new Set();
  for (const choice of members) {
    const [node] = Object.values(choice);
    for (const { TsParamProp: it } of (choice.Constructor && node.params) || []) {
      if (it && !isStatic && it.accessibility === 'Private') found.add((it.param.Assign ? it.param.Assign.left : it.param).Ident.id.sym);
    }
    if (node.accessibility === 'Private' && Boolean(node.is_static) === isStatic && node.key && node.key.Ident) found.add(node.key.Ident.sym);
  }
  return found;
}

/**
 * Members of which no private static one has the name of a private other one, since the program takes both for one: it has a word behind its name, which
 * `restored` takes away from the skeleton.
 *
 * @returns {forms.ClassMember[]}
 */
function withStaticNames(/** @type {Converter} */ c, /** @type {forms.ClassMember[]} */ members) {
  if (!c.short || !members.some((it) => Object.values(it)[0].is_static)) return members;
  const [names, others] = [privateNames(members, true), privateNames(members, false)];
  return members.map((choice) => {
    const [[variant, node]] = Object.entries(choice);
    const { Ident: key } = node.key || {};
    const isTwice = node.is_static && node.accessibility === 'Private' && key && names.has(key.sym) && others.has(key.sym);
    return isTwice ? /** @type {forms.ClassMember} */ ({ [variant]: { ...node, key: { Ident: { ...key, sym: key.sym + STATIC } } } }) : choice;
  });
}

/**
 * A class within its scope, which is entered. Its range begins at `start`.
 *
 * @returns {forms.Class}
 */
function classIn(/** @type {Converter} */ c, /** @type {ts.ClassLikeDeclaration} */ node, /** @type {Scope} */ scope, /** @type {number} */ start) {
  types.bindTypeParams(c, node);
  const [superClass] = heritage(node, K.ExtendsKeyword);
  return form({
    span: c.range(start, node.end),
    ctxt: c.numberOf(scope),
    decorators: decorators(c, node),
    body: withStaticNames(c, c.each(node.members, (it) => member(c, it))),
    super_class: superClass && expression(c, superClass.expression),
    is_abstract: hasModifier(node, K.AbstractKeyword),
    type_params: types.typeParams(c, node),
    super_type_params: superClass && types.instantiation(c, superClass),
    implements: heritage(node, K.ImplementsKeyword).map((it) => implemented(c, it)),
  });
}

/**
 * A class with a scope of its own.
 *
 * @returns {forms.Class}
 */
function classOf(/** @type {Converter} */ c, /** @type {ts.ClassLikeDeclaration} */ node, /** @type {number} */ start) {
  return c.within((scope) => classIn(c, node, scope, start));
}

/** @type {Map<ts.SyntaxKind, forms.Accessibility>} */
const ACCESS = new Map([
  [K.PublicKeyword, 'Public'],
  [K.ProtectedKeyword, 'Protected'],
  [K.PrivateKeyword, 'Private'],
]);

/** @returns {forms.Accessibility | null} */
function accessibility(/** @type {Converter} */ c, /** @type {ts.Node} */ node) {
  const words = modifiersOf(node).filter((it) => ACCESS.has(it.kind));
  if (words.length > 1) c.refuse(words[1], 'a second accessibility');
  return (words.length && ACCESS.get(words[0].kind)) || null;
}

/** @type {Set<ts.SyntaxKind | undefined>} */
const KNOWN = new Set([
  ...ACCESS.keys(), K.StaticKeyword, K.AbstractKeyword, K.OverrideKeyword, K.ReadonlyKeyword, K.DeclareKeyword, K.AsyncKeyword,
  NEWER.AccessorKeyword, K.Decorator,
]);

/** The modifiers that members share. */
function marks(/** @type {Converter} */ c, /** @type {ts.MethodDeclaration | ts.AccessorDeclaration | ts.PropertyDeclaration} */ node) {
  for (const it of modifiersOf(node)) {
    if (!KNOWN.has(it.kind)) c.refuse(it, `no form for \`${ts.tokenToString(it.kind)}\` at a member`);
  }
  return {
    accessibility: accessibility(c, node),
    is_static: hasModifier(node, K.StaticKeyword),
    is_abstract: hasModifier(node, K.AbstractKeyword),
    is_override: hasModifier(node, K.OverrideKeyword),
    is_optional: !ts.isAccessor(node) && Boolean(node.questionToken),
  };
}

/** @type {Map<ts.SyntaxKind, forms.MethodKind>} */
const KINDS = new Map([
  [K.MethodDeclaration, 'Method'],
  [K.GetAccessor, 'Getter'],
  [K.SetAccessor, 'Setter'],
]);

/** @returns {forms.ClassMember} */
function method(/** @type {Converter} */ c, /** @type {ts.MethodDeclaration | ts.AccessorDeclaration} */ node) {
  const span = c.span(node);
  const made = functionOf(c, node, span);
  const found = decorators(c, node);
  if (found.length) made.decorators = found;
  const shared = { span, function: made, kind: KINDS.get(node.kind) || 'Method', ...marks(c, node) };
  if (ts.isPrivateIdentifier(node.name)) return { PrivateMethod: form({ ...shared, key: names.privateName(c, node.name) }) };
  return { Method: form({ ...shared, key: propName(c, node.name) }) };
}

/**
 * The value of a property. Behind a written type nothing of it is seen.
 *
 * @returns {forms.Expr | null}
 */
function propertyValue(/** @type {Converter} */ c, /** @type {ts.PropertyDeclaration} */ node) {
  if (!node.initializer) return null;
  if (node.type && c.cutsValue(node)) return { Lit: { Null: { span: c.span(node.initializer) } } };
  return expression(c, node.initializer);
}

/** @returns {forms.ClassMember} */
function property(/** @type {Converter} */ c, /** @type {ts.PropertyDeclaration} */ node) {
  const shared = {
    span: c.span(node),
    value: propertyValue(c, node),
    type_ann: types.annotation(c, node.type),
    decorators: decorators(c, node),
    ...marks(c, node),
    definite: Boolean(node.exclamationToken),
  };
  const own = ts.isPrivateIdentifier(node.name) ? { Private: names.privateName(c, node.name) } : { Public: propName(c, node.name) };
  if (NEWER.AccessorKeyword !== undefined && hasModifier(node, NEWER.AccessorKeyword)) return { AutoAccessor: form({ ...shared, key: own }) };
  const readonly = hasModifier(node, K.ReadonlyKeyword);
  if (own.Private) return { PrivateProp: form({ ...shared, key: own.Private, readonly }) };
  return { ClassProp: form({ ...shared, key: own.Public, readonly, declare: hasModifier(node, K.DeclareKeyword) }) };
}

const PROPERTY_MODIFIERS = [K.PublicKeyword, K.ProtectedKeyword, K.PrivateKeyword, K.ReadonlyKeyword, K.OverrideKeyword];

function isParameterProperty(/** @type {ts.ParameterDeclaration} */ node) {
  return PROPERTY_MODIFIERS.some((kind) => hasModifier(node, kind));
}

/** @returns {forms.ParamOrTsParamProp} */
function constructorParam(/** @type {Converter} */ c, /** @type {ts.ParameterDeclaration} */ node) {
  if (!isParameterProperty(node)) return { Param: param(c, node) };
  const made = patterns.parameter(c, node);
  if (!made.Ident && !made.Assign) c.refuse(node, 'no form for a parameter property that is a pattern');
  return {
    TsParamProp: form({
      span: c.span(node),
      decorators: decorators(c, node),
      accessibility: accessibility(c, node),
      is_override: hasModifier(node, K.OverrideKeyword),
      readonly: hasModifier(node, K.ReadonlyKeyword),
      param: /** @type {forms.TsParamPropParam} */ (made),
    }),
  };
}

/**
 * The key of a constructor: the word, or a string that means it. The compiler's node has none.
 *
 * @returns {forms.PropName}
 */
function constructorKey(/** @type {Converter} */ c, /** @type {ts.ConstructorDeclaration} */ node) {
  const start = c.after(keywordStart(node));
  const quote = c.text[start];
  if (quote !== '"' && quote !== "'") return { Ident: { span: c.range(start, start + 'constructor'.length), sym: 'constructor' } };
  const end = c.text.indexOf(quote, start + 1) + 1;
  return { Str: { span: c.range(start, end), value: 'constructor', raw: c.text.slice(start, end) } };
}

/** @returns {forms.ClassMember} */
function constructor(/** @type {Converter} */ c, /** @type {ts.ConstructorDeclaration} */ node) {
  return c.within((scope) => {
    for (const it of node.parameters) patterns.bindParameter(scope, it);
    return {
      Constructor: form({
        span: c.span(node),
        ctxt: c.numberOf(scope),
        key: constructorKey(c, node),
        params: node.parameters.map((it) => constructorParam(c, it)),
        body: constructorBody(c, node),
        accessibility: accessibility(c, node),
      }),
    };
  });
}

/** Where the text goes on behind the modifiers. */
function keywordStart(/** @type {ts.Node} */ node) {
  const modifiers = modifiersOf(node);
  return modifiers.length ? modifiers[modifiers.length - 1].end : node.pos;
}

/** @returns {forms.ClassMember} */
function staticBlock(/** @type {Converter} */ c, /** @type {ts.ClassStaticBlockDeclaration} */ node) {
  return c.within(() => ({ StaticBlock: { span: c.span(node), body: bodyOf(c, node) } }));
}

/** @type {import('./nodes').Converters<forms.ClassMember>} */
const MEMBERS = {
  [K.Constructor]: constructor,
  [K.MethodDeclaration]: method,
  [K.GetAccessor]: method,
  [K.SetAccessor]: method,
  [K.PropertyDeclaration]: property,
  [K.IndexSignature]: (c, node) => ({ TsIndexSignature: types.indexSignature(c, node) }),
  [K.SemicolonClassElement]: (c, node) => ({ Empty: { span: c.span(node) } }),
  [K.ClassStaticBlockDeclaration]: staticBlock,
};

/** @returns {forms.ClassMember} */
function member(/** @type {Converter} */ c, /** @type {ts.ClassElement} */ node) {
  const convert = converterOf(MEMBERS, node);
  if (convert) return convert(c, node);
  c.unknown(node, 'a member of a class');
  return { Empty: { span: c.span(node) } };
}

module.exports = { functionIn, functionOf, classIn, classOf, implemented, heritage };
