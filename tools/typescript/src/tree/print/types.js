'use strict';
// Prints names, types, patterns and signatures.

/** @typedef {import('./writer.js').Writer} Writer */

/** @typedef {import('./printers').Spanned} Spanned */
/** @typedef {import('./printers').Parameter} Parameter */

const { parts } = require('./parts.js');
const { spanOf, variantOf } = require('../walk.js');

/** @type {forms.Span} */
const NOWHERE = [0, 0];

/**
 * Prints what a choice holds by the entry of its variant.
 *
 * @template V
 * @template {keyof V} K
 * @param {import('./printers').Printers<V>} printers
 * @param {Writer} w
 * @param {K} variant
 * @param {V[K]} node
 */
function printBy(printers, w, variant, node) {
  printers[variant](w, node);
}

/** Writes a node with the comments before and after it. */
function at(/** @type {Writer} */ w, /** @type {Spanned} */ node, /** @type {() => void} */ call) {
  const [start, end] = node.span || NOWHERE;
  w.leading(start);
  call();
  w.trailing(end);
}

/**
 * A list with something between its parts.
 *
 * @template T
 * @param {Writer} w
 * @param {T[] | null | undefined} list
 * @param {string} between
 * @param {(w: Writer, it: T) => void} call
 */
function separated(w, list, between, call) {
  (list || []).forEach((it, place) => {
    if (place) w.write(between);
    call(w, it);
  });
}

/**
 * A list in delimiters, each part on a line of its own where it is wide.
 *
 * @template T
 * @param {Writer} w
 * @param {T[]} list
 * @param {string} open
 * @param {string} close
 * @param {boolean} wide
 * @param {(w: Writer, it: T) => void} call
 */
function listed(w, list, open, close, wide, call, last = ',') {
  if (!wide || list.length === 0) {
    w.write(open);
    separated(w, list, ', ', call);
    w.write(close);
    return;
  }
  w.write(open);
  w.indented(() => {
    list.forEach((it, place) => {
      w.line();
      call(w, it);
      w.write(place + 1 < list.length ? ',' : last);
    });
  });
  w.line();
  w.write(close);
}

// ---- names and literals

function quoted(/** @type {string} */ text) {
  return JSON.stringify(text).replace(/\u2028/g, '\\u2028').replace(/\u2029/g, '\\u2029');
}

function str(/** @type {Writer} */ w, /** @type {forms.Str} */ node) {
  at(w, node, () => w.write(node.raw === null || node.raw === undefined ? quoted(node.value) : node.raw));
}

function ident(/** @type {Writer} */ w, /** @type {forms.Ident} */ node) {
  at(w, node, () => w.write(node.optional ? `${node.sym}?` : node.sym));
}

function name(/** @type {Writer} */ w, /** @type {forms.Ident | forms.IdentName} */ node) {
  at(w, node, () => w.write(node.sym));
}

function privateName(/** @type {Writer} */ w, /** @type {forms.PrivateName} */ node) {
  at(w, node, () => w.write(`#${node.name}`));
}

/** @type {import('./printers').Printers<forms.LitVariants & Pick<forms.TsLitVariants, 'Number'>>} */
const LITERALS = {
  Str: str,
  Bool: (w, node) => w.write(node.value ? 'true' : 'false'),
  Null: (w) => w.write('null'),
  Num: (w, node) => w.write(node.raw),
  Number: (w, node) => w.write(node.raw),
  BigInt: (w, node) => w.write(node.raw),
  Regex: (w, node) => w.write(`/${node.exp}/${node.flags}`),
  JSXText: (w, node) => w.write(node.raw),
};

function literal(/** @type {Writer} */ w, /** @type {forms.Lit | forms.TsLit} */ choice) {
  const [variant, node] = variantOf(choice);
  if (variant === 'Tpl') template(w, node.quasis, node.types, type);
  else at(w, node, () => printBy(LITERALS, w, variant, node));
}

/**
 * A template whose parts are written by a call.
 *
 * @template T
 * @param {Writer} w
 * @param {forms.TplElement[] | undefined} quasis
 * @param {T[] | undefined} parts
 * @param {(w: Writer, it: T) => void} call
 */
function template(w, quasis, parts, call) {
  w.write('`');
  (quasis || []).forEach((it, place) => {
    w.raw(it.raw);
    if (parts && place < parts.length) {
      w.write('${');
      call(w, parts[place]);
      w.write('}');
    }
  });
  w.write('`');
}

function entity(/** @type {Writer} */ w, /** @type {forms.TsEntityName} */ choice) {
  const [variant, node] = variantOf(choice);
  if (variant === 'Ident') return ident(w, node);
  return at(w, node, () => {
    entity(w, node.left);
    w.write('.');
    name(w, node.right);
  });
}

// ---- types

function annotation(/** @type {Writer} */ w, /** @type {forms.TsTypeAnn | null | undefined} */ node, before = ': ') {
  if (!node) return;
  w.write(before);
  at(w, node, () => type(w, node.type_ann));
}

function typeArguments(/** @type {Writer} */ w, /** @type {forms.TsTypeParamInstantiation | null | undefined} */ node) {
  if (!node) return;
  at(w, node, () => {
    w.write('<');
    separated(w, node.params, ', ', type);
    w.write('>');
  });
}

function typeParameter(/** @type {Writer} */ w, /** @type {forms.TsTypeParam} */ node) {
  at(w, node, () => {
    if (node.is_const) w.write('const ');
    if (node.is_in) w.write('in ');
    if (node.is_out) w.write('out ');
    ident(w, node.name);
    if (node.constraint) {
      w.write(' extends ');
      type(w, node.constraint);
    }
    if (node.default) {
      w.write(' = ');
      type(w, node.default);
    }
  });
}

/** Type parameters. `isReserved` says that one alone needs a comma, without which it would be an element. */
function typeParameters(/** @type {Writer} */ w, /** @type {forms.TsTypeParamDecl | null | undefined} */ node, isReserved = false) {
  if (!node) return;
  const params = node.params || [];
  at(w, node, () => {
    w.write('<');
    separated(w, params, ', ', typeParameter);
    w.write(isReserved && params.length === 1 && !params[0].constraint ? ',>' : '>');
  });
}

function parameters(/** @type {Writer} */ w, /** @type {Parameter[] | undefined} */ list) {
  const params = list || [];
  const isWide = w.isWide((line) => separated(line, params, ', ', pattern)) || hasComments(w, params);
  listed(w, params, '(', ')', isWide, pattern, afterLast(params));
}

/** The pattern of a parameter. */
function partOf(/** @type {forms.Part} */ { Param: param, pat, ...others }) {
  return /** @type {forms.Part} */ ((param && param.pat) || pat || others);
}

/** What stands after the last of several lines of parameters: no comma may follow a rest. */
function afterLast(/** @type {(Parameter | forms.ParamOrTsParamProp)[]} */ params) {
  const last = params[params.length - 1];
  return last && partOf(last).Rest ? '' : ',';
}

/** The position at which a part begins; 0 where that is not known. */
const startOf = (/** @type {forms.Part} */ node) => (spanOf(node) || NOWHERE)[0];

/** Whether comments stand before a part of a list. */
const hasComments = (/** @type {Writer} */ w, /** @type {forms.Part[]} */ list) => list.some((it) => w.hasLeading(startOf(it)));

function functionType(/** @type {Writer} */ w, /** @type {forms.TsFnOrConstructorType} */ choice) {
  const [variant, node] = variantOf(choice);
  at(w, node, () => {
    if (node.is_abstract) w.write('abstract ');
    if (variant === 'TsConstructorType') w.write('new ');
    typeParameters(w, node.type_params);
    parameters(w, node.params);
    annotation(w, node.type_ann, ' => ');
  });
}

/** The type as a part of one that binds closer: a made tree may lack the parentheses. */
function closer(/** @type {Writer} */ w, /** @type {forms.TsType} */ choice, /** @type {string[]} */ variants) {
  const many = choice.TsUnionOrIntersectionType;
  const needs = variants.some((it) => it in choice) || (many && variants.includes(Object.keys(many)[0]));
  if (needs) w.write('(');
  type(w, choice);
  if (needs) w.write(')');
}

const LOOSE = ['TsFnOrConstructorType', 'TsConditionalType'];

function union(/** @type {Writer} */ w, /** @type {forms.TsUnionOrIntersectionType} */ choice) {
  const [variant, node] = variantOf(choice);
  const sign = variant === 'TsUnionType' ? '|' : '&';
  const loose = variant === 'TsUnionType' ? LOOSE : [...LOOSE, 'TsUnionType'];
  const inLine = (/** @type {Writer} */ line) => separated(line, node.types, ` ${sign} `, (w_, it) => closer(w_, it, loose));
  at(w, node, () => {
    if (!w.isWide(inLine)) {
      inLine(w);
      return;
    }
    w.indented(() => {
      for (const it of node.types || []) {
        w.line();
        w.write(`${sign} `);
        closer(w, it, loose);
      }
    });
  });
}

function mappedMark(/** @type {string | null | undefined} */ mark, /** @type {string} */ word) {
  if (!mark) return '';
  return mark === 'true' ? word : mark + word;
}

function mapped(/** @type {Writer} */ w, /** @type {forms.TsMappedType} */ node) {
  w.write('{ ');
  const readonly = mappedMark(node.readonly, 'readonly');
  if (readonly) w.write(`${readonly} `);
  w.write('[');
  ident(w, node.type_param.name);
  w.write(' in ');
  if (node.type_param.constraint) type(w, node.type_param.constraint);
  if (node.name_type) {
    w.write(' as ');
    type(w, node.name_type);
  }
  w.write(']');
  w.write(mappedMark(node.optional, '?'));
  if (node.type_ann) {
    w.write(': ');
    type(w, node.type_ann);
  }
  w.write(' }');
}

function conditional(/** @type {Writer} */ w, /** @type {forms.TsConditionalType} */ node) {
  const isWide = w.isWide((line) => conditional(line, node));
  closer(w, node.check_type, LOOSE);
  w.write(' extends ');
  closer(w, node.extends_type, ['TsConditionalType']);
  const branches = () => {
    separatedBranch(w, isWide, '? ', node.true_type);
    separatedBranch(w, isWide, ': ', node.false_type);
  };
  if (isWide) w.indented(branches);
  else branches();
}

function separatedBranch(/** @type {Writer} */ w, /** @type {boolean} */ wide, /** @type {string} */ sign, /** @type {forms.TsType} */ branch) {
  if (wide) w.line();
  else w.write(' ');
  w.write(sign);
  type(w, branch);
}

function predicate(/** @type {Writer} */ w, /** @type {forms.TsTypePredicate} */ node) {
  if (node.asserts) w.write('asserts ');
  if (node.param_name.Ident) ident(w, node.param_name.Ident);
  else w.write('this');
  if (node.type_ann) annotation(w, node.type_ann, ' is ');
}

function importType(/** @type {Writer} */ w, /** @type {forms.TsImportType} */ node) {
  at(w, node, () => {
    w.write('import(');
    str(w, node.arg);
    w.write(')');
    if (node.qualifier) {
      w.write('.');
      entity(w, node.qualifier);
    }
    typeArguments(w, node.type_args);
  });
}

function query(/** @type {Writer} */ w, /** @type {forms.TsTypeQuery} */ node) {
  w.write('typeof ');
  if (node.expr_name.Import) importType(w, node.expr_name.Import);
  else entity(w, node.expr_name.TsEntityName);
  typeArguments(w, node.type_args);
}

function tupleElement(/** @type {Writer} */ w, /** @type {forms.TsTupleElement} */ node) {
  at(w, node, () => {
    if (node.label) {
      pattern(w, node.label);
      w.write(': ');
    }
    type(w, node.ty);
  });
}

function tuple(/** @type {Writer} */ w, /** @type {forms.TsTupleType} */ node) {
  const isWide = w.isWide((line) => tuple(line, node));
  listed(w, node.elem_types || [], '[', ']', isWide, tupleElement);
}

const KEYWORD = /^Ts(.*)Keyword$/;
const OPERATORS = { KeyOf: 'keyof', Unique: 'unique', ReadOnly: 'readonly' };
const POSTFIX = [...LOOSE, 'TsUnionType', 'TsIntersectionType', 'TsTypeOperator', 'TsInferType', 'TsTypeQuery'];

/** @type {import('./printers').Printers<forms.TsTypeVariants>} */
const TYPES = {
  TsKeywordType: (w, node) => w.write(node.kind.replace(KEYWORD, '$1').toLowerCase()),
  TsThisType: (w) => w.write('this'),
  TsFnOrConstructorType: functionType,
  TsTypeRef: (w, node) => {
    entity(w, node.type_name);
    typeArguments(w, node.type_params);
  },
  TsTypeQuery: query,
  TsTypeLit: (w, node) => members(w, node.members || [], node),
  TsArrayType: (w, node) => {
    closer(w, node.elem_type, POSTFIX.slice(0, -1));
    w.write('[]');
  },
  TsTupleType: tuple,
  TsOptionalType: (w, node) => {
    closer(w, node.type_ann, POSTFIX);
    w.write('?');
  },
  TsRestType: (w, node) => {
    w.write('...');
    type(w, node.type_ann);
  },
  TsUnionOrIntersectionType: union,
  TsConditionalType: conditional,
  TsInferType: (w, node) => {
    w.write('infer ');
    typeParameter(w, node.type_param);
  },
  TsParenthesizedType: (w, node) => {
    w.write('(');
    type(w, node.type_ann);
    w.write(')');
  },
  TsTypeOperator: (w, node) => {
    w.write(`${OPERATORS[node.op]} `);
    closer(w, node.type_ann, [...LOOSE, 'TsUnionType', 'TsIntersectionType']);
  },
  TsIndexedAccessType: (w, node) => {
    closer(w, node.obj_type, POSTFIX.slice(0, -1));
    w.write('[');
    type(w, node.index_type);
    w.write(']');
  },
  TsMappedType: mapped,
  TsLitType: (w, node) => {
    literal(w, node.lit);
  },
  TsTypePredicate: predicate,
  TsImportType: importType,
};

/** A type. */
function type(/** @type {Writer} */ w, /** @type {forms.TsType} */ choice) {
  const [variant, node] = variantOf(choice);
  if ('span' in node) at(w, node, () => printBy(TYPES, w, variant, node));
  else printBy(TYPES, w, variant, node);
}

// ---- members of interfaces and type literals

function signatureKey(/** @type {Writer} */ w, /** @type {{ key: forms.Expr, computed?: boolean }} */ node) {
  if (node.computed) w.write('[');
  parts.expression(w, node.key);
  if (node.computed) w.write(']');
}

function callSignature(/** @type {Writer} */ w, /** @type {forms.TsCallSignatureDecl | forms.TsConstructSignatureDecl | forms.TsMethodSignature} */ node) {
  typeParameters(w, node.type_params);
  parameters(w, node.params);
  annotation(w, node.type_ann);
}

function indexSignature(/** @type {Writer} */ w, /** @type {forms.TsIndexSignature} */ node) {
  if (node.is_static) w.write('static ');
  if (node.readonly) w.write('readonly ');
  w.write('[');
  separated(w, node.params, ', ', pattern);
  w.write(']');
  annotation(w, node.type_ann);
}

/** @type {import('./printers').Printers<forms.TsTypeElementVariants>} */
const MEMBERS = {
  TsCallSignatureDecl: callSignature,
  TsConstructSignatureDecl: (w, node) => {
    w.write('new ');
    callSignature(w, node);
  },
  TsPropertySignature: (w, node) => {
    if (node.readonly) w.write('readonly ');
    signatureKey(w, node);
    if (node.optional) w.write('?');
    annotation(w, node.type_ann);
  },
  TsGetterSignature: (w, node) => {
    w.write('get ');
    signatureKey(w, node);
    w.write('()');
    annotation(w, node.type_ann);
  },
  TsSetterSignature: (w, node) => {
    w.write('set ');
    signatureKey(w, node);
    parameters(w, node.params);
  },
  TsMethodSignature: (w, node) => {
    signatureKey(w, node);
    if (node.optional) w.write('?');
    callSignature(w, node);
  },
  TsIndexSignature: indexSignature,
};

function member(/** @type {Writer} */ w, /** @type {forms.TsTypeElement} */ choice, /** @type {string} */ end) {
  const [variant, node] = variantOf(choice);
  at(w, node, () => {
    printBy(MEMBERS, w, variant, node);
    w.write(end);
  });
}

/** Members in braces, on one line where they are short and have no comments. */
function members(/** @type {Writer} */ w, /** @type {forms.TsTypeElement[]} */ list, /** @type {Spanned} */ node) {
  const [start, end] = node.span || NOWHERE;
  const isCommented = hasComments(w, list) || w.hasLeading(end - 1) || w.hasTrailing(start + 1);
  if (list.length && !isCommented && !w.isWide((line) => members(line, list, node))) {
    w.write('{ ');
    list.forEach((it, place) => {
      if (place) w.write(' ');
      member(w, it, place + 1 < list.length ? ';' : '');
    });
    w.write(' }');
    return;
  }
  memberLines(w, list, node);
}

/** Members in braces, each on a line of its own. */
function memberLines(/** @type {Writer} */ w, /** @type {forms.TsTypeElement[]} */ list, /** @type {Spanned} */ node) {
  const [start, end] = node.span || NOWHERE;
  w.write('{');
  w.trailing(start && start + 1);
  w.indented(() => {
    for (const it of list) {
      w.line();
      member(w, it, ';');
    }
    if (w.hasLeading(end - 1)) {
      w.line();
      w.leading(end - 1);
    }
  });
  if (list.length) w.line();
  w.write('}');
}

// ---- patterns

function objectPatternProp(/** @type {Writer} */ w, /** @type {forms.ObjectPatProp} */ choice) {
  const [variant, node] = variantOf(choice);
  if (variant === 'KeyValue') {
    parts.propName(w, node.key);
    w.write(': ');
    pattern(w, node.value);
  } else if (variant === 'Assign') {
    at(w, node, () => {
      binding(w, node.key);
      withDefault(w, node.value);
    });
  } else {
    pattern(w, { Rest: node });
  }
}

function withDefault(/** @type {Writer} */ w, /** @type {forms.Expr | null | undefined} */ value) {
  if (!value) return;
  w.write(' = ');
  parts.expression(w, value);
}

function binding(/** @type {Writer} */ w, /** @type {forms.BindingIdent} */ node) {
  ident(w, node.id);
  annotation(w, node.type_ann);
}

function arrayPattern(/** @type {Writer} */ w, /** @type {forms.ArrayPat} */ node) {
  const elems = node.elems || [];
  w.write('[');
  elems.forEach((it, place) => {
    if (place) w.write(', ');
    if (it) pattern(w, it);
  });
  if (elems.length && !elems[elems.length - 1]) w.write(',');
  w.write(node.optional ? ']?' : ']');
  annotation(w, node.type_ann);
}

function objectPattern(/** @type {Writer} */ w, /** @type {forms.ObjectPat} */ node) {
  const props = node.props || [];
  if (props.length === 0) w.write('{}');
  else {
    w.write('{ ');
    separated(w, props, ', ', objectPatternProp);
    w.write(' }');
  }
  if (node.optional) w.write('?');
  annotation(w, node.type_ann);
}

/** @type {import('./printers').Printers<Omit<forms.PatVariants, 'Ident' | 'Expr'>>} */
const PATTERNS = {
  Array: arrayPattern,
  Object: objectPattern,
  Rest: (w, node) => {
    w.write('...');
    pattern(w, node.arg);
    annotation(w, node.type_ann);
  },
  Assign: (w, node) => {
    pattern(w, node.left);
    withDefault(w, node.right);
  },
  Invalid: (w) => w.write('/* invalid */'),
};

/** A pattern, or a parameter of a function with its decorators. */
function pattern(/** @type {Writer} */ w, /** @type {Parameter} */ choice) {
  if (choice.pat) {
    const { pat, decorators } = choice;
    at(w, choice, () => {
      parts.decorators(w, decorators, ' ');
      pattern(w, pat);
    });
    return;
  }
  const [variant, node] = variantOf(/** @type {forms.Pat} */ (choice));
  if (variant === 'Ident') binding(w, node);
  else if (variant === 'Expr') parts.expression(w, node);
  else at(w, node, () => printBy(PATTERNS, w, variant, node));
}

module.exports = {
  printBy, at, separated, listed, str, ident, name, privateName, literal, template, entity, annotation,
  typeArguments, typeParameters, parameters, afterLast, hasComments, type, indexSignature, memberLines, pattern,
};
