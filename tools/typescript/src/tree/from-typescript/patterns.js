'use strict';
// Patterns: what binds or is assigned to, and parameters.

const { ts } = require('../../compiler/typescript.js');
const { form } = require('./converter.js');
const { VALUE, bindPattern, eachName } = require('./scopes.js');
const names = require('./names.js');
const { parts } = require('./parts.js');

const { SyntaxKind: K } = ts;

// Types and expressions hold patterns, which hold types and expressions.

/** @typedef {import('./converter.js').Converter} Converter */
/** @typedef {import('./scopes.js').Scope} Scope */

function bindParameter(/** @type {Scope} */ scope, /** @type {ts.ParameterDeclaration} */ node) {
  bindPattern(scope, node.name);
  if (node.initializer || !ts.isIdentifier(node.name)) eachName(node.name, (it) => scope.unsaid.set(it.text, ts.isIdentifier(node.name)));
}

/** @returns {forms.Pat} */
function identPattern(/** @type {Converter} */ c, /** @type {ts.Identifier} */ node, /** @type {boolean} */ optional, /** @type {ts.TypeNode | undefined} */ type) {
  const id = form({ ...names.binding(c, node, VALUE), optional });
  return { Ident: form({ id, type_ann: parts.annotation(c, type) }) };
}

/** @returns {forms.Pat} */
function withDefault(/** @type {Converter} */ c, /** @type {ts.ParameterDeclaration | ts.BindingElement} */ node, /** @type {forms.Pat} */ left) {
  if (!node.initializer) return left;
  const right = c.told(parts.expression(c, node.initializer), node.initializer);
  return { Assign: { span: c.range(c.start(node.name), node.initializer.end), left, right } };
}

/** @returns {forms.Pat | null} */
function arrayElement(/** @type {Converter} */ c, /** @type {ts.ArrayBindingElement} */ node) {
  if (ts.isOmittedExpression(node)) return null;
  const inner = pattern(c, node.name);
  if (node.dotDotDotToken) return { Rest: { span: c.span(node), dot3_token: c.span(node.dotDotDotToken), arg: inner } };
  return withDefault(c, node, inner);
}

/** @returns {forms.ObjectPatProp} */
function objectProperty(/** @type {Converter} */ c, /** @type {ts.BindingElement} */ node) {
  if (node.dotDotDotToken) {
    return { Rest: { span: c.span(node), dot3_token: c.span(node.dotDotDotToken), arg: pattern(c, node.name) } };
  }
  if (node.propertyName) {
    const key = parts.propName(c, node.propertyName);
    return { KeyValue: { key, value: withDefault(c, node, pattern(c, node.name)) } };
  }
  const value = node.initializer && parts.expression(c, node.initializer);
  return { Assign: form({ span: c.span(node), key: { id: names.binding(c, /** @type {ts.Identifier} */ (node.name), VALUE) }, value }) };
}

/**
 * A pattern that binds names, with the `?` and the type that stand behind it.
 *
 * @returns {forms.Pat}
 */
function pattern(/** @type {Converter} */ c, /** @type {ts.BindingName} */ node, optional = false, /** @type {ts.TypeNode | undefined} */ type = undefined) {
  if (ts.isIdentifier(node)) return identPattern(c, node, optional, type);
  const span = c.range(c.start(node), type ? type.end : node.end);
  const type_ann = parts.annotation(c, type);
  if (ts.isObjectBindingPattern(node)) {
    return { Object: form({ span, props: node.elements.map((it) => objectProperty(c, it)), optional, type_ann }) };
  }
  if (ts.isArrayBindingPattern(node)) {
    return { Array: form({ span, elems: node.elements.map((it) => arrayElement(c, it)), optional, type_ann }) };
  }
  return { Expr: c.unknown(node, 'a pattern') };
}

/**
 * A parameter without its decorators and modifiers.
 *
 * @returns {forms.Pat}
 */
function parameter(/** @type {Converter} */ c, /** @type {ts.ParameterDeclaration} */ node) {
  const optional = Boolean(node.questionToken);
  if (node.dotDotDotToken) {
    const end = node.type ? node.type.end : node.name.end;
    return {
      Rest: form({
        span: c.range(c.start(node.dotDotDotToken), end),
        dot3_token: c.span(node.dotDotDotToken),
        arg: pattern(c, node.name),
        type_ann: parts.annotation(c, node.type),
      }),
    };
  }
  // A parser takes both, and a checker does not: the parameter is read by its default.
  if (optional && node.initializer) c.fault(node, 'a parameter cannot have question mark and initializer');
  return withDefault(c, node, pattern(c, node.name, optional && !node.initializer, node.type));
}

/**
 * The parameter of an index signature: an identifier whose range takes in its type.
 *
 * @returns {forms.Pat}
 */
function indexParameter(/** @type {Converter} */ c, /** @type {ts.ParameterDeclaration} */ node) {
  const made = parameter(c, node);
  if (made.Ident) made.Ident.id.span = c.range(c.start(node.name), node.type ? node.type.end : node.name.end);
  return made;
}

// ---- patterns that are written as expressions: targets of assignments

/** @returns {forms.Pat | null} */
function assignedElement(/** @type {Converter} */ c, /** @type {ts.Expression} */ node) {
  if (ts.isOmittedExpression(node)) return null;
  if (ts.isSpreadElement(node)) return restOf(c, node);
  return assigned(c, node);
}

/** @returns {{ Rest: forms.RestPat }} */
function restOf(/** @type {Converter} */ c, /** @type {ts.SpreadElement | ts.SpreadAssignment} */ node) {
  const start = c.start(node);
  return { Rest: { span: c.span(node), dot3_token: c.range(start, start + 3), arg: assigned(c, node.expression) } };
}

/** @returns {forms.ObjectPatProp} */
function assignedProperty(/** @type {Converter} */ c, /** @type {ts.ObjectLiteralElementLike} */ node) {
  if (ts.isSpreadAssignment(node)) return restOf(c, node);
  if (ts.isShorthandPropertyAssignment(node)) {
    const value = node.objectAssignmentInitializer && parts.expression(c, node.objectAssignmentInitializer);
    return { Assign: form({ span: c.span(node), key: { id: names.reference(c, node.name) }, value }) };
  }
  if (ts.isPropertyAssignment(node)) {
    return { KeyValue: { key: parts.propName(c, node.name), value: assigned(c, node.initializer) } };
  }
  c.refuse(node, `no form for ${K[node.kind]} in a pattern`);
  return c.invalid(node);
}

/**
 * What is assigned to, as a pattern.
 *
 * @returns {forms.Pat}
 */
function assigned(/** @type {Converter} */ c, /** @type {ts.Expression} */ node) {
  if (ts.isIdentifier(node)) return { Ident: { id: names.reference(c, node) } };
  if (ts.isArrayLiteralExpression(node)) {
    return { Array: form({ span: c.span(node), elems: node.elements.map((it) => assignedElement(c, it)) }) };
  }
  if (ts.isObjectLiteralExpression(node)) {
    return { Object: form({ span: c.span(node), props: node.properties.map((it) => assignedProperty(c, it)) }) };
  }
  if (ts.isBinaryExpression(node) && node.operatorToken.kind === K.EqualsToken) {
    const right = parts.expression(c, node.right);
    return { Assign: { span: c.span(node), left: assigned(c, node.left), right } };
  }
  return { Expr: parts.expression(c, node) };
}

function isLiteralPattern(/** @type {ts.Expression} */ node) {
  return ts.isArrayLiteralExpression(node) || ts.isObjectLiteralExpression(node);
}

module.exports = { pattern, parameter, indexParameter, bindParameter, assigned, isLiteralPattern };
