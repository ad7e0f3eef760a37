'use strict';
// Types, signatures, and the members of interfaces.

const { hasModifier } = require('../../compiler/modifiers.js');
const { ts } = require('../../compiler/typescript.js');
const { converterOf, form, oneOf } = require('./converter.js');
const { TYPE, VALUE, NAMESPACE } = require('./scopes.js');
const names = require('./names.js');
const { parts } = require('./parts.js');
const patterns = require('./patterns.js');

/** @typedef {import('./converter.js').Converter} Converter */
/** @typedef {import('./scopes.js').Scope} Scope */

const { SyntaxKind: K } = ts;

/** @type {Map<ts.SyntaxKind, forms.TsKeywordTypeKind>} */
const KEYWORDS = new Map([
  [K.AnyKeyword, 'TsAnyKeyword'],
  [K.UnknownKeyword, 'TsUnknownKeyword'],
  [K.NumberKeyword, 'TsNumberKeyword'],
  [K.ObjectKeyword, 'TsObjectKeyword'],
  [K.BooleanKeyword, 'TsBooleanKeyword'],
  [K.BigIntKeyword, 'TsBigIntKeyword'],
  [K.StringKeyword, 'TsStringKeyword'],
  [K.SymbolKeyword, 'TsSymbolKeyword'],
  [K.VoidKeyword, 'TsVoidKeyword'],
  [K.UndefinedKeyword, 'TsUndefinedKeyword'],
  [K.NullKeyword, 'TsNullKeyword'],
  [K.NeverKeyword, 'TsNeverKeyword'],
  [K.IntrinsicKeyword, 'TsIntrinsicKeyword'],
]);

/** @type {Map<ts.SyntaxKind, forms.TsTypeOperatorOp>} */
const OPERATORS = new Map([
  [K.KeyOfKeyword, 'KeyOf'],
  [K.UniqueKeyword, 'Unique'],
  [K.ReadonlyKeyword, 'ReadOnly'],
]);

/**
 * A name with dots. `meaning` is what the whole is looked up as; the first of several names is looked up as a namespace.
 *
 * @returns {forms.TsEntityName}
 */
function entity(/** @type {Converter} */ c, /** @type {ts.EntityName} */ node, /** @type {number} */ meaning) {
  if (ts.isIdentifier(node)) return { Ident: names.reference(c, node, meaning) };
  const first = meaning & VALUE ? VALUE | NAMESPACE : NAMESPACE;
  return { TsQualifiedName: { span: c.span(node), left: entity(c, node.left, first), right: names.identName(c, node.right) } };
}

/** @returns {forms.TsTypeParamInstantiation | null} */
function instantiation(/** @type {Converter} */ c, /** @type {{ readonly typeArguments?: ts.NodeArray<ts.TypeNode> }} */ node) {
  if (!node.typeArguments) return null;
  const end = c.after(node.typeArguments.end) + 1;
  return form({ span: c.range(node.typeArguments.pos - 1, end), params: node.typeArguments.map((it) => type(c, it)) });
}

/** Binds type parameters in the scope at hand. */
function bindTypeParams(/** @type {Converter} */ c, /** @type {{ readonly typeParameters?: ts.NodeArray<ts.TypeParameterDeclaration> }} */ node) {
  for (const it of node.typeParameters || []) c.scope.bind(it.name.text, TYPE);
}

/** @returns {forms.TsTypeParam} */
function typeParam(/** @type {Converter} */ c, /** @type {ts.TypeParameterDeclaration} */ node) {
  return form({
    span: c.span(node),
    name: names.binding(c, node.name, TYPE),
    is_in: hasModifier(node, K.InKeyword),
    is_out: hasModifier(node, K.OutKeyword),
    is_const: hasModifier(node, K.ConstKeyword),
    constraint: node.constraint && type(c, node.constraint),
    default: node.default && type(c, node.default),
  });
}

/** @returns {forms.TsTypeParamDecl | null} */
function typeParams(/** @type {Converter} */ c, /** @type {{ readonly typeParameters?: ts.NodeArray<ts.TypeParameterDeclaration> }} */ node) {
  if (!node.typeParameters) return null;
  const end = c.after(node.typeParameters.end) + 1;
  return form({ span: c.range(node.typeParameters.pos - 1, end), params: node.typeParameters.map((it) => typeParam(c, it)) });
}

/**
 * A type behind `:`, which the range takes in.
 *
 * @returns {forms.TsTypeAnn | null}
 */
function annotation(/** @type {Converter} */ c, /** @type {ts.TypeNode | undefined} */ node) {
  if (!node) return null;
  return { span: c.range(node.pos - 1, node.end), type_ann: type(c, node) };
}

/**
 * The type behind the arrow of a function type.
 *
 * @returns {forms.TsTypeAnn}
 */
function arrowAnnotation(/** @type {Converter} */ c, /** @type {ts.TypeNode} */ node) {
  return { span: c.range(node.pos - 2, node.end), type_ann: type(c, node) };
}

/**
 * What a call makes in the scope of a signature.
 *
 * @template R
 * @param {Converter} c
 * @param {{ parameters: readonly ts.ParameterDeclaration[], typeParameters?: ts.NodeArray<ts.TypeParameterDeclaration> }} node
 * @param {() => R} make
 */
function signature(c, node, make) {
  return c.within(() => {
    bindTypeParams(c, node);
    for (const it of node.parameters) patterns.bindParameter(c.scope, it);
    return c.ofSignature(make);
  });
}

/** @returns {forms.TsFnType} */
function functionType(/** @type {Converter} */ c, /** @type {ts.FunctionTypeNode | ts.ConstructorTypeNode} */ node) {
  return signature(c, node, () => form({
    span: c.span(node),
    params: node.parameters.map((it) => patterns.parameter(c, it)),
    type_params: typeParams(c, node),
    type_ann: arrowAnnotation(c, node.type),
    is_abstract: hasModifier(node, K.AbstractKeyword),
  }));
}

/** @returns {forms.TsTupleElement} */
function tupleElement(/** @type {Converter} */ c, /** @type {ts.TypeNode | ts.NamedTupleMember} */ node) {
  if (!ts.isNamedTupleMember(node)) return { span: c.span(node), ty: type(c, node) };
  const { questionToken } = node;
  const end = questionToken ? questionToken.end : node.name.end;
  const id = form({ span: c.range(c.start(node.name), end), sym: node.name.text, optional: Boolean(questionToken) });
  /** @type {forms.Pat} */
  let label = { Ident: { id } };
  if (node.dotDotDotToken) {
    label = { Rest: { span: c.range(c.start(node), end), dot3_token: c.span(node.dotDotDotToken), arg: label } };
  }
  return { span: c.span(node), label, ty: type(c, node.type) };
}

/** @returns {forms.TsType} */
function union(/** @type {Converter} */ c, /** @type {ts.UnionTypeNode | ts.IntersectionTypeNode} */ node, /** @type {'TsUnionType' | 'TsIntersectionType'} */ variant) {
  if (node.types.length === 1) return type(c, node.types[0]);
  return { TsUnionOrIntersectionType: oneOf(variant, { span: c.span(node), types: node.types.map((it) => type(c, it)) }) };
}

/** Binds the names behind `infer` in a type, but not those of conditional types within it. */
function bindInferred(/** @type {Scope} */ scope, /** @type {ts.Node} */ node) {
  if (ts.isInferTypeNode(node)) scope.bind(node.typeParameter.name.text, TYPE);
  if (ts.isConditionalTypeNode(node)) {
    for (const part of [node.checkType, node.trueType, node.falseType]) bindInferred(scope, part);
    return;
  }
  ts.forEachChild(node, (child) => bindInferred(scope, child));
}

/** @returns {forms.TsConditionalType} */
function conditional(/** @type {Converter} */ c, /** @type {ts.ConditionalTypeNode} */ node) {
  const checked = type(c, node.checkType);
  return c.within((scope) => {
    bindInferred(scope, node.extendsType);
    const extended = type(c, node.extendsType);
    const yes = type(c, node.trueType);
    const no = c.within(() => type(c, node.falseType), scope.parent || scope);
    return { span: c.span(node), check_type: checked, extends_type: extended, true_type: yes, false_type: no };
  });
}

/** `readonly` or `?` of a mapped type: a text, as swc has it. */
function mappedMark(/** @type {ts.Node | undefined} */ token) {
  if (!token) return null;
  if (ts.isPlusToken(token)) return '+';
  return ts.isMinusToken(token) ? '-' : 'true';
}

/** @returns {forms.TsMappedType} */
function mapped(/** @type {Converter} */ c, /** @type {ts.MappedTypeNode} */ node) {
  if (node.members && node.members.length) c.refuse(node.members[0], 'no form for a member of a mapped type');
  return c.within((scope) => {
    scope.bind(node.typeParameter.name.text, TYPE);
    return form({
      span: c.span(node),
      readonly: mappedMark(node.readonlyToken),
      type_param: typeParam(c, node.typeParameter),
      name_type: node.nameType && type(c, node.nameType),
      optional: mappedMark(node.questionToken),
      type_ann: node.type && type(c, node.type),
    });
  });
}

/** @returns {forms.TsType} */
function literalType(/** @type {Converter} */ c, /** @type {ts.LiteralTypeNode} */ node) {
  const { literal } = node;
  switch (literal.kind) {
    case K.NullKeyword:
      return { TsKeywordType: { span: c.span(node), kind: 'TsNullKeyword' } };
    case K.StringLiteral:
      return { TsLitType: { span: c.span(node), lit: { Str: names.str(c, /** @type {ts.StringLiteral} */ (literal)) } } };
    case K.TrueKeyword:
    case K.FalseKeyword:
      return { TsLitType: { span: c.span(node), lit: { Bool: names.bool(c, literal) } } };
    case K.NoSubstitutionTemplateLiteral:
      return templateType(c, node, /** @type {ts.NoSubstitutionTemplateLiteral} */ (literal));
    case K.NumericLiteral:
    case K.BigIntLiteral:
    case K.PrefixUnaryExpression: {
      const number = ts.isPrefixUnaryExpression(literal) ? literal.operand : literal;
      return { TsLitType: { span: c.span(node), lit: oneOf(ts.isBigIntLiteral(number) ? 'BigInt' : 'Number', names.raw(c, literal)) } };
    }
    default:
      return c.unknown(literal, 'a literal type');
  }
}

/** @returns {forms.TsType} */
function templateType(/** @type {Converter} */ c, /** @type {ts.TypeNode} */ node, /** @type {ts.TemplateLiteralTypeNode | ts.NoSubstitutionTemplateLiteral} */ template) {
  const { quasis, parts } = names.templateParts(c, template, (/** @type {ts.TemplateLiteralTypeSpan} */ it) => type(c, it.type));
  return { TsLitType: { span: c.span(node), lit: { Tpl: form({ span: c.span(template), types: parts, quasis }) } } };
}

/** @returns {forms.TsTypePredicate} */
function predicate(/** @type {Converter} */ c, /** @type {ts.TypePredicateNode} */ node) {
  const name = node.parameterName;
  const isThis = !ts.isIdentifier(name);
  return form({
    span: c.span(node),
    asserts: Boolean(node.assertsModifier),
    param_name: isThis ? { TsThisType: { span: c.span(name) } } : { Ident: names.reference(c, name) },
    type_ann: node.type && { span: c.span(node.type), type_ann: type(c, node.type) },
  });
}

/** @returns {forms.TsEntityName} */
function withoutScope(/** @type {Converter} */ c, /** @type {ts.EntityName} */ node) {
  if (ts.isIdentifier(node)) return { Ident: names.plain(c, node) };
  return { TsQualifiedName: { span: c.span(node), left: withoutScope(c, node.left), right: names.identName(c, node.right) } };
}

/** Whether an import type has attributes, which compilers before 5.3 call assertions. */
function hasAttributes(/** @type {{ assertions?: ts.Node, attributes?: ts.Node }} */ { assertions, attributes }) {
  return Boolean(assertions || attributes);
}

/** @returns {forms.TsType} */
function importType(/** @type {Converter} */ c, /** @type {ts.ImportTypeNode} */ node) {
  const argument = ts.isLiteralTypeNode(node.argument) ? node.argument.literal : null;
  if (!argument || !ts.isStringLiteral(argument)) return c.unknown(node.argument, 'the module of an import type');
  if (hasAttributes(node)) c.refuse(node, 'no form for the attributes of an import type');
  c.sources.push({ text: argument.text, offset: c.start(argument), comment: null });
  const start = node.isTypeOf ? c.after(c.start(node) + 'typeof'.length) : c.start(node);
  const made = form({
    span: c.range(start, node.end),
    arg: names.str(c, argument),
    qualifier: node.qualifier && withoutScope(c, node.qualifier),
    type_args: instantiation(c, node),
  });
  return node.isTypeOf ? { TsTypeQuery: { span: c.span(node), expr_name: { Import: made } } } : { TsImportType: made };
}

/** @returns {forms.TsTypeQuery} */
function query(/** @type {Converter} */ c, /** @type {ts.TypeQueryNode} */ node) {
  return form({
    span: c.span(node),
    expr_name: { TsEntityName: entity(c, node.exprName, VALUE) },
    type_args: instantiation(c, node),
  });
}

/** @type {import('./nodes').Converters<forms.TsType>} */
const TYPES = {
  [K.ThisType]: (c, node) => ({ TsThisType: { span: c.span(node) } }),
  [K.FunctionType]: (c, node) => ({ TsFnOrConstructorType: { TsFnType: functionType(c, node) } }),
  [K.ConstructorType]: (c, node) => ({ TsFnOrConstructorType: { TsConstructorType: functionType(c, node) } }),
  [K.TypeReference]: (c, node) => ({
    TsTypeRef: form({ span: c.span(node), type_name: entity(c, node.typeName, TYPE), type_params: instantiation(c, node) }),
  }),
  [K.TypeQuery]: (c, node) => ({ TsTypeQuery: query(c, node) }),
  [K.TypeLiteral]: (c, node) => ({ TsTypeLit: form({ span: c.span(node), members: node.members.map((it) => member(c, it)) }) }),
  [K.ArrayType]: (c, node) => ({ TsArrayType: { span: c.span(node), elem_type: type(c, node.elementType) } }),
  [K.TupleType]: (c, node) => ({ TsTupleType: form({ span: c.span(node), elem_types: node.elements.map((it) => tupleElement(c, it)) }) }),
  [K.OptionalType]: (c, node) => ({ TsOptionalType: { span: c.span(node), type_ann: type(c, node.type) } }),
  [K.RestType]: (c, node) => ({ TsRestType: { span: c.span(node), type_ann: type(c, node.type) } }),
  [K.UnionType]: (c, node) => union(c, node, 'TsUnionType'),
  [K.IntersectionType]: (c, node) => union(c, node, 'TsIntersectionType'),
  [K.ConditionalType]: (c, node) => ({ TsConditionalType: conditional(c, node) }),
  [K.InferType]: (c, node) => ({ TsInferType: { span: c.span(node), type_param: typeParam(c, node.typeParameter) } }),
  [K.ParenthesizedType]: (c, node) => ({ TsParenthesizedType: { span: c.span(node), type_ann: type(c, node.type) } }),
  [K.TypeOperator]: (c, node) => ({
    TsTypeOperator: { span: c.span(node), op: OPERATORS.get(node.operator) || 'KeyOf', type_ann: type(c, node.type) },
  }),
  [K.IndexedAccessType]: (c, node) => ({
    TsIndexedAccessType: { span: c.span(node), obj_type: type(c, node.objectType), index_type: type(c, node.indexType) },
  }),
  [K.MappedType]: (c, node) => ({ TsMappedType: mapped(c, node) }),
  [K.LiteralType]: literalType,
  [K.TemplateLiteralType]: (c, node) => templateType(c, node, node),
  [K.TypePredicate]: (c, node) => ({ TsTypePredicate: predicate(c, node) }),
  [K.ImportType]: importType,
  // A type of a heritage clause that stands by itself.
  [K.ExpressionWithTypeArguments]: (c, node) => c.unknown(node, 'a type'),
};

/**
 * A type.
 *
 * @returns {forms.TsType}
 */
function type(/** @type {Converter} */ c, /** @type {ts.TypeNode} */ node) {
  const keyword = KEYWORDS.get(node.kind);
  if (keyword) return { TsKeywordType: { span: c.span(node), kind: keyword } };
  const convert = converterOf(TYPES, node);
  return convert ? convert(c, node) : c.unknown(node, 'a type');
}

// ---- members of interfaces and type literals

/**
 * The key of a signature: an expression, and whether it is computed.
 *
 * @returns {{ key: forms.Expr, computed?: boolean }}
 */
function signatureKey(/** @type {Converter} */ c, /** @type {ts.PropertyName} */ name) {
  if (ts.isIdentifier(name)) return { key: { Ident: names.plain(c, name) } };
  if (ts.isComputedPropertyName(name)) return { key: parts.expression(c, name.expression), computed: true };
  const literal = names.literal(c, name);
  return { key: literal ? { Lit: literal } : c.unknown(name, 'the key of a signature') };
}

/** @returns {forms.Pat[]} */
function parameters(/** @type {Converter} */ c, /** @type {ts.SignatureDeclaration} */ node) {
  return node.parameters.map((it) => patterns.parameter(c, it));
}

/** @returns {forms.TsIndexSignature} */
function indexSignature(/** @type {Converter} */ c, /** @type {ts.IndexSignatureDeclaration} */ node) {
  const [parameter] = node.parameters;
  if (!parameter || !parameter.type || parameter.modifiers) c.refuse(node, 'no form for an index signature without its one typed parameter');
  return c.within((scope) => {
    for (const it of node.parameters) patterns.bindParameter(scope, it);
    return form({
      span: c.span(node),
      params: node.parameters.map((it) => patterns.indexParameter(c, it)),
      type_ann: annotation(c, node.type),
      readonly: hasModifier(node, K.ReadonlyKeyword),
      is_static: hasModifier(node, K.StaticKeyword),
    });
  });
}

/** @returns {forms.TsCallSignatureDecl} */
function callSignature(/** @type {Converter} */ c, /** @type {ts.CallSignatureDeclaration | ts.ConstructSignatureDeclaration | ts.MethodSignature} */ node) {
  return signature(c, node, () => form({
    span: c.span(node), params: parameters(c, node), type_ann: annotation(c, node.type), type_params: typeParams(c, node),
  }));
}

/** @type {import('./nodes').Converters<forms.TsTypeElement>} */
const MEMBERS = {
  [K.CallSignature]: (c, node) => ({ TsCallSignatureDecl: callSignature(c, node) }),
  [K.ConstructSignature]: (c, node) => ({ TsConstructSignatureDecl: callSignature(c, node) }),
  [K.PropertySignature]: (c, node) => {
    const { initializer } = /** @type {{ initializer?: ts.Expression }} */ (node);
    if (initializer) c.refuse(initializer, 'no form for the value of a signature');
    return {
      TsPropertySignature: form({
        span: c.span(node),
        ...signatureKey(c, node.name),
        readonly: hasModifier(node, K.ReadonlyKeyword),
        optional: Boolean(node.questionToken),
        type_ann: annotation(c, node.type),
      }),
    };
  },
  [K.GetAccessor]: (c, node) => ({
    TsGetterSignature: form({ span: c.span(node), ...signatureKey(c, node.name), type_ann: annotation(c, node.type) }),
  }),
  [K.SetAccessor]: (c, node) => signature(c, node, () => ({
    TsSetterSignature: form({ span: c.span(node), ...signatureKey(c, node.name), params: parameters(c, node) }),
  })),
  [K.MethodSignature]: (c, node) => {
    const key = signatureKey(c, node.name);
    const optional = Boolean(node.questionToken);
    return { TsMethodSignature: form({ ...callSignature(c, node), ...key, optional }) };
  },
  [K.IndexSignature]: (c, node) => ({ TsIndexSignature: indexSignature(c, node) }),
};

/** @returns {forms.TsTypeElement} */
function member(/** @type {Converter} */ c, /** @type {ts.TypeElement} */ node) {
  const convert = converterOf(MEMBERS, node);
  return convert ? convert(c, node) : c.unknown(node, 'a member of an interface');
}

module.exports = {
  type, annotation, typeParams, bindTypeParams, instantiation, entity, member, indexSignature,
};
