'use strict';
// Expressions.

const { hasModifier } = require('../../compiler/modifiers.js');
const { ts } = require('../../compiler/typescript.js');
const { NEWER, converterOf, form, oneOf } = require('./converter.js');
const { NAMESPACE, TYPE, VALUE } = require('./scopes.js');
const names = require('./names.js');
const { parts } = require('./parts.js');
const patterns = require('./patterns.js');
const types = require('./types.js');

const { SyntaxKind: K } = ts;


/** @typedef {import('./converter.js').Converter} Converter */
/** @typedef {import('./scopes.js').Scope} Scope */

// ---- keys and properties

/**
 * The key of a property: a choice of `PropName`.
 *
 * @returns {forms.PropName}
 */
function propName(/** @type {Converter} */ c, /** @type {ts.PropertyName} */ node) {
  if (ts.isComputedPropertyName(node)) return { Computed: { span: c.span(node), expr: expression(c, node.expression) } };
  if (ts.isIdentifier(node)) return { Ident: names.identName(c, node) };
  return /** @type {forms.PropName | null} */ (names.literal(c, node)) || c.unknown(node, 'a key');
}

/** @returns {forms.PropOrSpread} */
function refused(/** @type {Converter} */ c, /** @type {ts.Node} */ node) {
  c.refuse(node, `no form for ${K[node.kind]} in an object`);
  return c.invalid(node);
}

/** @returns {forms.PropOrSpread} */
function objectMember(/** @type {Converter} */ c, /** @type {ts.ObjectLiteralElementLike} */ node) {
  switch (node.kind) {
    case K.SpreadAssignment:
      return { Spread: { dot3_token: c.range(c.start(node), c.start(node) + 3), expr: expression(c, node.expression) } };
    case K.ShorthandPropertyAssignment: {
      const key = names.reference(c, node.name);
      if (!node.objectAssignmentInitializer) return { Prop: { Shorthand: key } };
      return { Prop: { Assign: { span: c.span(node), key, value: expression(c, node.objectAssignmentInitializer) } } };
    }
    case K.PropertyAssignment:
      return { Prop: { KeyValue: { key: propName(c, node.name), value: expression(c, node.initializer) } } };
    case K.MethodDeclaration:
      return { Prop: { Method: { key: propName(c, node.name), function: parts.functionOf(c, node) } } };
    case K.GetAccessor:
    case K.SetAccessor:
      return { Prop: accessor(c, node) };
    default:
      return refused(c, node);
  }
}

/** @returns {forms.Prop} */
function accessor(/** @type {Converter} */ c, /** @type {ts.AccessorDeclaration} */ node) {
  const key = propName(c, node.name);
  return c.within((scope) => {
    for (const it of node.parameters) patterns.bindParameter(scope, it);
    const body = parts.functionBody(c, node);
    if (ts.isGetAccessorDeclaration(node)) {
      return { Getter: form({ span: c.span(node), key, type_ann: types.annotation(c, node.type), body }) };
    }
    const [param] = node.parameters.filter((it) => c.written(it.name) !== 'this');
    if (!param || node.parameters.length > 1) {
      c.refuse(node, 'no form for a setter without its one parameter');
      return { Getter: form({ span: c.span(node), key }) };
    }
    return { Setter: form({ span: c.span(node), key, param: patterns.parameter(c, param), body }) };
  });
}

// ---- members and calls

/** @returns {forms.MemberProp} */
function memberProp(/** @type {Converter} */ c, /** @type {ts.PropertyAccessExpression | ts.ElementAccessExpression} */ node) {
  if (ts.isElementAccessExpression(node)) {
    const { argumentExpression: key } = node;
    // Cut short, no other member under a text is assigned to by a statement than one that may stand behind a dot.
    if (c.short && c.assigned === node && ts.isStringLiteralLike(key)) return { Ident: { span: c.span(key), sym: key.text } };
    const open = c.text.lastIndexOf('[', node.argumentExpression.pos);
    return { Computed: { span: c.range(open, node.end), expr: expression(c, node.argumentExpression) } };
  }
  return ts.isPrivateIdentifier(node.name)
    ? { PrivateName: names.privateName(c, node.name) }
    : { Ident: names.identName(c, node.name) };
}

function isChained(/** @type {ts.Node} */ node) {
  return (node.flags & ts.NodeFlags.OptionalChain) !== 0;
}

/** @returns {forms.Expr} */
function chain(/** @type {Converter} */ c, /** @type {ts.PropertyAccessExpression | ts.ElementAccessExpression | ts.CallExpression} */ node, /** @type {forms.OptChainBase} */ base) {
  return { OptChain: form({ span: c.span(node), optional: Boolean(node.questionDotToken), base }) };
}

/** @returns {forms.Expr} */
function member(/** @type {Converter} */ c, /** @type {ts.PropertyAccessExpression | ts.ElementAccessExpression} */ node) {
  if (node.expression.kind === K.SuperKeyword) return { SuperProp: { span: c.span(node), prop: memberProp(c, node) } };
  const made = { span: c.span(node), obj: expression(c, node.expression), prop: memberProp(c, node) };
  return isChained(node) ? chain(c, node, { Member: made }) : { Member: made };
}

/** @returns {forms.ExprOrSpread} */
function argument(/** @type {Converter} */ c, /** @type {ts.Expression} */ node) {
  if (!ts.isSpreadElement(node)) return { expr: expression(c, node) };
  return { spread: c.range(c.start(node), c.start(node) + 3), expr: expression(c, node.expression) };
}

/** Whether a node is the `import.defer` of a call, which compilers read from 5.9 on. */
function isDeferred(/** @type {ts.Expression} */ node) {
  return ts.isMetaProperty(node) && node.keywordToken === K.ImportKeyword && node.name.text === 'defer';
}

/** @returns {forms.Callee} */
function callee(/** @type {Converter} */ c, /** @type {ts.Expression} */ node) {
  if (node.kind === K.SuperKeyword) return { Super: { span: c.span(node) } };
  if (node.kind === K.ImportKeyword) return { Import: { span: c.span(node), phase: 'evaluation' } };
  if (isDeferred(node)) return { Import: { span: c.span(node), phase: 'defer' } };
  return { Expr: expression(c, node) };
}

/** @returns {forms.Expr} */
function call(/** @type {Converter} */ c, /** @type {ts.CallExpression} */ node) {
  const made = form({
    span: c.span(node),
    callee: callee(c, node.expression),
    args: node.arguments.map((it) => argument(c, it)),
    type_args: types.instantiation(c, node),
  });
  return isChained(node) ? chain(c, node, { Call: made }) : { Call: made };
}

/**
 * `new`, whose list of arguments may be absent, which is not the empty list.
 *
 * @returns {forms.Expr}
 */
function newExpression(/** @type {Converter} */ c, /** @type {ts.NewExpression} */ node) {
  /** @type {forms.NewExpr} */
  const made = form({ span: c.span(node), callee: expression(c, node.expression), type_args: types.instantiation(c, node) });
  if (node.arguments) made.args = node.arguments.map((it) => argument(c, it));
  return { New: made };
}

// ---- operators

/** How an operator is written. */
function operatorText(/** @type {ts.SyntaxKind} */ kind) {
  return ts.tokenToString(kind) || '';
}

function isAssignment(/** @type {ts.SyntaxKind} */ kind) {
  return kind >= K.FirstAssignment && kind <= K.LastAssignment;
}

/**
 * The target of an assignment.
 *
 * @returns {forms.AssignTarget}
 */
function target(/** @type {Converter} */ c, /** @type {ts.Expression} */ node, /** @type {ts.SyntaxKind} */ operator) {
  if (operator === K.EqualsToken && patterns.isLiteralPattern(node)) return { Pat: patterns.assigned(c, node) };
  return { Simple: expression(c, node) };
}

/**
 * The parts of a sequence, which swc has in one list.
 *
 * @returns {forms.Expr}
 */
function sequence(/** @type {Converter} */ c, /** @type {ts.BinaryExpression} */ node) {
  const parts = [];
  /** @type {ts.Expression} */
  let left = node;
  while (ts.isBinaryExpression(left) && left.operatorToken.kind === K.CommaToken) {
    parts.unshift(expression(c, left.right));
    left = left.left;
  }
  parts.unshift(expression(c, left));
  return { Seq: { span: c.span(node), exprs: parts } };
}

/** @returns {forms.Expr} */
function binary(/** @type {Converter} */ c, /** @type {ts.BinaryExpression} */ node) {
  const operator = node.operatorToken.kind;
  if (operator === K.CommaToken) return sequence(c, node);
  const op = operatorText(operator);
  if (isAssignment(operator)) {
    return { Assign: { span: c.span(node), op, left: target(c, node.left, operator), right: expression(c, node.right) } };
  }
  return { Bin: { span: c.span(node), op, left: expression(c, node.left), right: expression(c, node.right) } };
}

/** @returns {forms.Expr} */
function prefix(/** @type {Converter} */ c, /** @type {ts.PrefixUnaryExpression} */ node) {
  const op = operatorText(node.operator);
  const arg = expression(c, node.operand);
  if (op === '++' || op === '--') return { Update: { span: c.span(node), op, prefix: true, arg } };
  return { Unary: { span: c.span(node), op, arg } };
}

/** @returns {forms.Expr} */
function wordOperator(/** @type {Converter} */ c, /** @type {ts.TypeOfExpression | ts.VoidExpression | ts.DeleteExpression} */ node, /** @type {string} */ op) {
  return { Unary: { span: c.span(node), op, arg: expression(c, node.expression) } };
}

// ---- functions and templates

function isAsync(/** @type {ts.Node} */ node) {
  return hasModifier(node, K.AsyncKeyword);
}

/** @returns {forms.Expr} */
function arrow(/** @type {Converter} */ c, /** @type {ts.ArrowFunction} */ node) {
  return c.within((scope) => {
    types.bindTypeParams(c, node);
    for (const it of node.parameters) patterns.bindParameter(scope, it);
    const params = node.parameters.map((it) => patterns.parameter(c, it));
    const type_params = types.typeParams(c, node);
    const return_type = types.annotation(c, node.type);
    const body = ts.isBlock(node.body) ? { BlockStmt: parts.bodyOf(c, node) } : { Expr: arrowValue(c, node, node.body) };
    return { Arrow: form({ span: c.span(node), ctxt: c.numberOf(scope), params, body, is_async: isAsync(node), type_params, return_type }) };
  });
}

/**
 * The value of an arrow. Behind a written type nothing of it is seen.
 *
 * @returns {forms.Expr}
 */
function arrowValue(/** @type {Converter} */ c, /** @type {ts.ArrowFunction} */ node, /** @type {ts.Expression} */ value) {
  return node.type && c.cutsValue(node) ? { Lit: { Null: { span: c.span(value) } } } : c.told(expression(c, value), value);
}

/** @returns {forms.Expr} */
function functionExpression(/** @type {Converter} */ c, /** @type {ts.FunctionExpression} */ node) {
  return c.within((scope) => {
    if (node.name) scope.bind(node.name.text, VALUE);
    const ident = node.name && names.binding(c, node.name, VALUE);
    return { Fn: form({ ident, function: parts.functionIn(c, node, scope) }) };
  });
}

/** @returns {forms.Expr} */
function classExpression(/** @type {Converter} */ c, /** @type {ts.ClassExpression} */ node) {
  return c.within((scope) => {
    if (node.name) scope.bind(node.name.text, VALUE | TYPE);
    const ident = node.name && names.binding(c, node.name, VALUE);
    return { Class: form({ ident, class: parts.classIn(c, node, scope, c.start(node)) }) };
  });
}

/** @returns {forms.Tpl} */
function template(/** @type {Converter} */ c, /** @type {ts.TemplateLiteral} */ node) {
  const { quasis, parts } = names.templateParts(c, node, (/** @type {ts.TemplateSpan} */ it) => expression(c, it.expression));
  return form({ span: c.span(node), exprs: parts, quasis });
}

/** @returns {forms.Expr} */
function tagged(/** @type {Converter} */ c, /** @type {ts.TaggedTemplateExpression} */ node) {
  return {
    TaggedTpl: form({
      span: c.span(node),
      tag: expression(c, node.tag),
      type_params: types.instantiation(c, node),
      tpl: template(c, node.template),
    }),
  };
}

function isConstType(/** @type {ts.TypeNode} */ node) {
  return ts.isTypeReferenceNode(node) && !node.typeArguments && ts.isIdentifier(node.typeName) && node.typeName.text === 'const';
}

/** @returns {forms.Expr} */
function assertion(/** @type {Converter} */ c, /** @type {ts.AsExpression | ts.TypeAssertion} */ node, /** @type {'TsAs' | 'TsTypeAssertion' | 'TsSatisfies'} */ variant) {
  const expr = expression(c, node.expression);
  if (isConstType(node.type)) return { TsConstAssertion: { span: c.span(node), expr } };
  return oneOf(variant, { span: c.span(node), expr, type_ann: types.type(c, node.type) });
}

/** @returns {forms.Expr} */
function array(/** @type {Converter} */ c, /** @type {ts.ArrayLiteralExpression} */ node) {
  const elems = node.elements.map((it) => (ts.isOmittedExpression(it) ? null : argument(c, it)));
  return { Array: form({ span: c.span(node), elems }) };
}

/** @returns {forms.Expr} */
function yieldExpression(/** @type {Converter} */ c, /** @type {ts.YieldExpression} */ node) {
  const arg = node.expression && expression(c, node.expression);
  return { Yield: form({ span: c.span(node), arg, delegate: Boolean(node.asteriskToken) }) };
}

/** @returns {forms.Expr} */
function metaProperty(/** @type {Converter} */ c, /** @type {ts.MetaProperty} */ node) {
  const kind = `${node.keywordToken === K.ImportKeyword ? 'import' : 'new'}.${node.name.text}`;
  if (kind !== 'import.meta' && kind !== 'new.target') return c.unknown(node, `the property \`${kind}\``);
  return { MetaProp: { span: c.span(node), kind } };
}

/** JSX stays text: no rule looks into it. */
function jsx(/** @type {'JSXElement' | 'JSXFragment'} */ variant) {
  return (/** @type {Converter} */ c, /** @type {ts.Node} */ node) => oneOf(variant, names.raw(c, node));
}

const literal = (/** @type {Converter} */ c, /** @type {ts.Node} */ node) => ({ Lit: /** @type {forms.Lit} */ (names.literal(c, node)) });

/** @type {import('./nodes').Converters<forms.Expr>} */
const EXPRESSIONS = {
  [K.Identifier]: (c, node) => ({ Ident: names.reference(c, node) }),
  [K.PrivateIdentifier]: (c, node) => ({ PrivateName: names.privateName(c, node) }),
  [K.ThisKeyword]: (c, node) => ({ This: { span: c.span(node) } }),
  [K.StringLiteral]: literal,
  [K.NumericLiteral]: literal,
  [K.BigIntLiteral]: literal,
  [K.TrueKeyword]: literal,
  [K.FalseKeyword]: literal,
  [K.NullKeyword]: literal,
  [K.RegularExpressionLiteral]: literal,
  [K.ArrayLiteralExpression]: array,
  [K.ObjectLiteralExpression]: (c, node) => ({
    Object: form({ span: c.span(node), props: c.each(node.properties, (it) => objectMember(c, it)) }),
  }),
  [K.FunctionExpression]: functionExpression,
  [K.ArrowFunction]: arrow,
  [K.ClassExpression]: classExpression,
  [K.PropertyAccessExpression]: member,
  [K.ElementAccessExpression]: member,
  [K.CallExpression]: call,
  [K.NewExpression]: newExpression,
  [K.BinaryExpression]: binary,
  [K.PrefixUnaryExpression]: prefix,
  [K.PostfixUnaryExpression]: (c, node) => ({
    Update: { span: c.span(node), op: operatorText(node.operator), arg: expression(c, node.operand) },
  }),
  [K.TypeOfExpression]: (c, node) => wordOperator(c, node, 'typeof'),
  [K.VoidExpression]: (c, node) => wordOperator(c, node, 'void'),
  [K.DeleteExpression]: (c, node) => wordOperator(c, node, 'delete'),
  [K.ConditionalExpression]: (c, node) => ({
    Cond: {
      span: c.span(node),
      test: expression(c, node.condition),
      cons: expression(c, node.whenTrue),
      alt: expression(c, node.whenFalse),
    },
  }),
  [K.NoSubstitutionTemplateLiteral]: (c, node) => ({ Tpl: template(c, node) }),
  [K.TemplateExpression]: (c, node) => ({ Tpl: template(c, node) }),
  [K.TaggedTemplateExpression]: tagged,
  [K.YieldExpression]: yieldExpression,
  [K.AwaitExpression]: (c, node) => ({ Await: { span: c.span(node), arg: expression(c, node.expression) } }),
  [K.ParenthesizedExpression]: (c, node) => ({ Paren: { span: c.span(node), expr: expression(c, node.expression) } }),
  [K.MetaProperty]: metaProperty,
  [K.AsExpression]: (c, node) => assertion(c, node, 'TsAs'),
  [K.TypeAssertionExpression]: (c, node) => assertion(c, node, 'TsTypeAssertion'),
  [K.NonNullExpression]: (c, node) => ({ TsNonNull: { span: c.span(node), expr: expression(c, node.expression) } }),
  [K.ExpressionWithTypeArguments]: (c, node) => ({
    TsInstantiation: {
      span: c.span(node), expr: expression(c, node.expression), type_args: /** @type {forms.TsTypeParamInstantiation} */ (types.instantiation(c, node)),
    },
  }),
  [K.JsxElement]: jsx('JSXElement'),
  [K.JsxSelfClosingElement]: jsx('JSXElement'),
  [K.JsxFragment]: jsx('JSXFragment'),
};
if (NEWER.SatisfiesExpression !== undefined) {
  const satisfies = (/** @type {Converter} */ c, /** @type {ts.AsExpression} */ node) => assertion(c, node, 'TsSatisfies');
  Object.assign(EXPRESSIONS, { [NEWER.SatisfiesExpression]: satisfies });
}

/**
 * An expression.
 *
 * @returns {forms.Expr}
 */
function expression(/** @type {Converter} */ c, /** @type {ts.Expression} */ node) {
  const convert = converterOf(EXPRESSIONS, node);
  return convert ? convert(c, node) : c.unknown(node, 'an expression');
}

/**
 * The name of a heritage clause that names a type: an identifier, or members of one.
 *
 * @returns {forms.Expr}
 */
function heritageName(/** @type {Converter} */ c, /** @type {ts.Expression} */ node) {
  if (ts.isPropertyAccessExpression(node) && !isChained(node)) {
    return { Member: { span: c.span(node), obj: heritageSpace(c, node.expression), prop: memberProp(c, node) } };
  }
  return ts.isIdentifier(node) ? { Ident: names.reference(c, node, TYPE) } : expression(c, node);
}

/** @returns {forms.Expr} */
function heritageSpace(/** @type {Converter} */ c, /** @type {ts.Expression} */ node) {
  if (ts.isPropertyAccessExpression(node) && !isChained(node)) {
    return { Member: { span: c.span(node), obj: heritageSpace(c, node.expression), prop: memberProp(c, node) } };
  }
  return ts.isIdentifier(node) ? { Ident: names.reference(c, node, NAMESPACE) } : expression(c, node);
}

module.exports = { expression, propName, heritageName, isAsync };
