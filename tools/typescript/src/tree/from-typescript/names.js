'use strict';
// Names, keys and literals.

const { ts } = require('../../compiler/typescript.js');
const { form } = require('./converter.js');
const { VALUE } = require('./scopes.js');

/** @typedef {import('./converter.js').Converter} Converter */

const { SyntaxKind: K } = ts;

/**
 * An identifier that is looked up. The parser gives an empty one where it misses a name without an error.
 *
 * @returns {forms.Ident}
 */
function reference(/** @type {Converter} */ c, /** @type {ts.Identifier} */ node, meaning = VALUE) {
  if (node.text === '') c.refuse(node, 'a name is missing here');
  return { span: c.span(node), ctxt: c.scope.find(node.text, meaning), sym: node.text };
}

/**
 * An identifier that binds a name in the nearest scope that has it.
 *
 * @returns {forms.Ident}
 */
function binding(/** @type {Converter} */ c, /** @type {ts.Identifier} */ node, /** @type {number} */ meaning, scope = c.scope) {
  return { span: c.span(node), ctxt: scope.find(node.text, meaning), sym: node.text };
}

/**
 * An identifier without scope, as a label or an imported name.
 *
 * @returns {forms.Ident}
 */
function plain(/** @type {Converter} */ c, /** @type {ts.Identifier} */ node) {
  return { span: c.span(node), sym: node.text };
}

/** @returns {forms.IdentName} */
function identName(/** @type {Converter} */ c, /** @type {ts.Identifier} */ node) {
  return { span: c.span(node), sym: node.text };
}

/** @returns {forms.PrivateName} */
function privateName(/** @type {Converter} */ c, /** @type {ts.PrivateIdentifier} */ node) {
  return { span: c.span(node), name: ts.idText(node).replace(/^#/, '') };
}

const LONE_SURROGATE = /[\ud800-\udbff](?![\udc00-\udfff])|(?<![\ud800-\udbff])[\udc00-\udfff]/;

function unicodeText(/** @type {Converter} */ c, /** @type {ts.Node} */ node, /** @type {string} */ text) {
  if (!LONE_SURROGATE.test(text)) return text;
  c.refuse(node, 'a text with a lone surrogate, which JSON of Unicode text has not');
  return text.replace(new RegExp(LONE_SURROGATE, 'g'), '\ufffd');
}

/** @returns {forms.Str} */
function str(/** @type {Converter} */ c, /** @type {ts.StringLiteralLike} */ node) {
  return { span: c.span(node), value: unicodeText(c, node, node.text), raw: c.written(node) };
}

/** @returns {{ span: forms.Span, raw: string }} */
function raw(/** @type {Converter} */ c, /** @type {ts.Node} */ node) {
  return { span: c.span(node), raw: c.written(node) };
}

/** @returns {forms.Bool} */
function bool(/** @type {Converter} */ c, /** @type {ts.Node} */ node) {
  return form({ span: c.span(node), value: node.kind === K.TrueKeyword });
}

/** @returns {forms.Regex} */
function regex(/** @type {Converter} */ c, /** @type {ts.Node} */ node) {
  const text = c.written(node);
  const end = text.lastIndexOf('/');
  return { span: c.span(node), exp: text.slice(1, end), flags: text.slice(end + 1) };
}

/**
 * The literal of a node, as a choice of `Lit`, or null.
 *
 * @returns {forms.Lit | null}
 */
function literal(/** @type {Converter} */ c, /** @type {ts.Node} */ node) {
  switch (node.kind) {
    case K.StringLiteral:
      return { Str: str(c, /** @type {ts.StringLiteral} */ (node)) };
    case K.NumericLiteral:
      return { Num: raw(c, node) };
    case K.BigIntLiteral:
      return { BigInt: raw(c, node) };
    case K.TrueKeyword:
    case K.FalseKeyword:
      return { Bool: bool(c, node) };
    case K.NullKeyword:
      return { Null: { span: c.span(node) } };
    case K.RegularExpressionLiteral:
      return { Regex: regex(c, node) };
    default:
      return null;
  }
}

/**
 * A piece of a template, between its delimiters.
 *
 * @returns {forms.TplElement}
 */
function templateElement(/** @type {Converter} */ c, /** @type {ts.TemplateHead | ts.TemplateMiddle | ts.TemplateTail | ts.NoSubstitutionTemplateLiteral} */ node) {
  const start = c.start(node);
  const isTail = ts.isTemplateTail(node) || ts.isNoSubstitutionTemplateLiteral(node);
  const end = node.end - (isTail ? 1 : 2);
  const raw = c.text.slice(start + 1, end);
  const { templateFlags = 0 } = /** @type {{ templateFlags?: number }} */ (node);
  const isInvalid = templateFlags & 2048 || node.text === undefined;
  const cooked = isInvalid ? null : unicodeText(c, node, node.text);
  const made = form({ span: c.range(start + 1, end), tail: isTail, cooked, raw: raw.replace(/\r\n?/g, '\n') });
  return made;
}

/**
 * The pieces of a template, and its parts by a call.
 *
 * @template {ts.TemplateSpan | ts.TemplateLiteralTypeSpan} S
 * @template P
 * @param {Converter} c
 * @param {ts.NoSubstitutionTemplateLiteral | { head: ts.TemplateHead, templateSpans: readonly S[] }} node
 * @param {(span: S) => P} part
 * @returns {{ quasis: forms.TplElement[], parts: P[] }}
 */
function templateParts(c, node, part) {
  if (!('head' in node)) return { quasis: [templateElement(c, node)], parts: [] };
  const quasis = [templateElement(c, node.head)];
  const parts = [];
  for (const it of node.templateSpans) {
    parts.push(part(it));
    quasis.push(templateElement(c, it.literal));
  }
  return { quasis, parts };
}

/**
 * The name of an import or an export: an identifier without scope, or a text.
 *
 * @returns {forms.ModuleExportName}
 */
function moduleExportName(/** @type {Converter} */ c, /** @type {ts.Identifier | ts.StringLiteral} */ node, ident = plain) {
  return ts.isStringLiteral(node) ? { Str: str(c, node) } : { Ident: ident(c, node) };
}

module.exports = {
  reference, binding, plain, identName, privateName, str, raw, bool, literal, templateParts, moduleExportName,
};
