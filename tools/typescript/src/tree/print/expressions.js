'use strict';
// Prints expressions, and the members of classes.

const { variantOf } = require('../walk.js');
const { parts } = require('./parts.js');
const t = require('./types.js');

/** @typedef {import('./writer.js').Writer} Writer */

const { at, printBy } = t;

// ---- keys and properties

function propName(/** @type {Writer} */ w, /** @type {forms.PropName} */ choice) {
  const [variant, node] = variantOf(choice);
  if (variant === 'Ident') t.name(w, node);
  else if (variant === 'Computed') {
    at(w, node, () => {
      w.write('[');
      expression(w, node.expr);
      w.write(']');
    });
  } else t.literal(w, /** @type {forms.Lit} */ (choice));
}

function accessor(/** @type {Writer} */ w, /** @type {string} */ word, /** @type {forms.GetterProp & { param?: forms.Pat }} */ node) {
  w.write(`${word} `);
  propName(w, node.key);
  w.write('(');
  if (node.param) t.pattern(w, node.param);
  w.write(')');
  t.annotation(w, node.type_ann);
  body(w, node.body);
}

/** @type {import('./printers').Printers<forms.PropVariants>} */
const PROPS = {
  Shorthand: t.ident,
  KeyValue: (w, node) => {
    propName(w, node.key);
    w.write(': ');
    expression(w, node.value);
  },
  Assign: (w, node) => {
    t.ident(w, node.key);
    w.write(' = ');
    expression(w, node.value);
  },
  Getter: (w, node) => accessor(w, 'get', node),
  Setter: (w, node) => accessor(w, 'set', node),
  Method: (w, node) => {
    functionMarks(w, node.function);
    propName(w, node.key);
    signature(w, node.function);
    body(w, node.function.body);
  },
};

function property(/** @type {Writer} */ w, /** @type {forms.PropOrSpread} */ choice) {
  if (choice.Spread) {
    w.write('...');
    expression(w, choice.Spread.expr);
    return;
  }
  const [variant, node] = variantOf(choice.Prop);
  if ('span' in node) at(w, node, () => printBy(PROPS, w, variant, node));
  else printBy(PROPS, w, variant, node);
}

function object(/** @type {Writer} */ w, /** @type {forms.ObjectLit} */ node) {
  const props = node.props || [];
  if (props.length === 0) w.write('{}');
  else if (w.isWide((line) => object(line, node)) || t.hasComments(w, props)) t.listed(w, props, '{', '}', true, property);
  else {
    w.write('{ ');
    t.separated(w, props, ', ', property);
    w.write(' }');
  }
}

// ---- members and calls

function argument(/** @type {Writer} */ w, /** @type {forms.ExprOrSpread} */ node) {
  if (node.spread) w.write('...');
  expression(w, node.expr);
}

/** Arguments, each on a line of its own where they are many, and the whole call is wide. */
function args(/** @type {Writer} */ w, /** @type {forms.ExprOrSpread[] | null | undefined} */ list, /** @type {(line: Writer) => void} */ whole) {
  const isWide = (list || []).length > 1 && w.isWide(whole);
  t.listed(w, list || [], '(', ')', isWide, argument);
}

/** Behind a dot or in brackets; `optional` is what stands before it. */
function memberProp(/** @type {Writer} */ w, /** @type {forms.MemberProp} */ choice, optional = '') {
  const [variant, node] = variantOf(choice);
  if (variant === 'Computed') {
    at(w, node, () => {
      w.write(`${optional}[`);
      expression(w, node.expr);
      w.write(']');
    });
    return;
  }
  w.write(optional || '.');
  if (variant === 'PrivateName') t.privateName(w, node);
  else t.name(w, node);
}

function member(/** @type {Writer} */ w, /** @type {forms.MemberExpr} */ node, optional = '') {
  expression(w, node.obj);
  // A whole number takes the dot for its own.
  if (node.obj.Lit && node.obj.Lit.Num && /^[\d_]+$/.test(node.obj.Lit.Num.raw) && !optional) w.write(' ');
  memberProp(w, node.prop, optional);
}

function callee(/** @type {Writer} */ w, /** @type {forms.Callee} */ choice) {
  if (choice.Super) at(w, choice.Super, () => w.write('super'));
  else if (choice.Import) at(w, choice.Import, () => w.write(choice.Import.phase === 'defer' ? 'import.defer' : 'import'));
  else expression(w, choice.Expr);
}

function call(/** @type {Writer} */ w, /** @type {forms.CallExpr | forms.OptCall} */ node, optional = '') {
  callee(w, node.callee);
  w.write(optional);
  t.typeArguments(w, node.type_args);
  args(w, node.args, (line) => call(line, node, optional));
}

function newExpression(/** @type {Writer} */ w, /** @type {forms.NewExpr} */ node) {
  w.write('new ');
  expression(w, node.callee);
  t.typeArguments(w, node.type_args);
  if (node.args) args(w, node.args, (line) => newExpression(line, node));
}

function chain(/** @type {Writer} */ w, /** @type {forms.OptChainExpr} */ node) {
  const optional = node.optional ? '?.' : '';
  const [variant, base] = variantOf(node.base);
  at(w, base, () => {
    if (variant === 'Member') member(w, base, optional);
    else call(w, base, optional);
  });
}

// ---- operators

const SIGN = /^[-+]/;

function unary(/** @type {Writer} */ w, /** @type {forms.UnaryExpr} */ node) {
  const isWord = /^[a-z]/.test(node.op);
  const [variant, inner] = variantOf(node.arg);
  const clashes = (variant === 'Unary' || (variant === 'Update' && inner.prefix)) && SIGN.test(node.op) && SIGN.test(inner.op);
  w.write(isWord || clashes ? `${node.op} ` : node.op);
  expression(w, node.arg);
}

/** Whether a value begins with the `<` of an assertion. */
function beginsWithAngle(/** @type {forms.Expr} */ choice) {
  let at = choice;
  while (at.Bin) at = at.Bin.left;
  return Boolean(at.TsTypeAssertion);
}

function binary(/** @type {Writer} */ w, /** @type {forms.BinExpr} */ node) {
  expression(w, node.left);
  // Behind `<< ` a parser would take the `<` of an assertion for that of a type parameter.
  w.write(node.op === '<<' && beginsWithAngle(node.right) ? ' <<' : ` ${node.op} `);
  expression(w, node.right);
}

function assign(/** @type {Writer} */ w, /** @type {forms.AssignExpr} */ node) {
  if (node.left.Pat) t.pattern(w, node.left.Pat);
  else expression(w, node.left.Simple);
  w.write(` ${node.op} `);
  expression(w, node.right);
}

function conditional(/** @type {Writer} */ w, /** @type {forms.CondExpr} */ node) {
  expression(w, node.test);
  w.write(' ? ');
  expression(w, node.cons);
  w.write(' : ');
  expression(w, node.alt);
}

// ---- functions

function functionMarks(/** @type {Writer} */ w, /** @type {forms.Function} */ node) {
  if (node.is_async) w.write('async ');
  if (node.is_generator) w.write('*');
}

function signature(/** @type {Writer} */ w, /** @type {forms.Function} */ node) {
  t.typeParameters(w, node.type_params);
  t.parameters(w, node.params);
  t.annotation(w, node.return_type);
}

function body(/** @type {Writer} */ w, /** @type {forms.BlockStmt | null | undefined} */ node) {
  if (!node) {
    w.write(';');
    return;
  }
  w.write(' ');
  parts.block(w, node);
}

/** `function`, its name, signature and body. */
function functionOf(/** @type {Writer} */ w, /** @type {forms.Ident | null | undefined} */ ident, /** @type {forms.Function} */ node) {
  if (node.is_async) w.write('async ');
  w.write('function');
  if (node.is_generator) w.write('*');
  if (ident) {
    w.write(' ');
    t.ident(w, ident);
  } else w.write(' ');
  signature(w, node);
  body(w, node.body);
}

function arrow(/** @type {Writer} */ w, /** @type {forms.ArrowExpr} */ node) {
  if (node.is_async) w.write('async ');
  t.typeParameters(w, node.type_params, w.isAngleReserved);
  t.parameters(w, node.params);
  t.annotation(w, node.return_type);
  w.write(' => ');
  if (node.body.BlockStmt) parts.block(w, node.body.BlockStmt);
  else expression(w, node.body.Expr);
}

function tpl(/** @type {Writer} */ w, /** @type {forms.Tpl} */ node) {
  at(w, node, () => t.template(w, node.quasis, node.exprs, expression));
}

function array(/** @type {Writer} */ w, /** @type {forms.ArrayLit} */ node) {
  const elems = node.elems || [];
  const written = elems.flatMap((it) => it || []);
  if (written.length === elems.length && w.isWide((line) => array(line, node))) {
    t.listed(w, written, '[', ']', true, argument);
    return;
  }
  w.write('[');
  elems.forEach((it, place) => {
    if (place) w.write(', ');
    if (it) argument(w, it);
  });
  if (elems.length && !elems[elems.length - 1]) w.write(',');
  w.write(']');
}

/** What prints an expression between two texts. */
function wrapped(/** @type {string} */ before, /** @type {string} */ after) {
  return (/** @type {Writer} */ w, /** @type {{ expr: forms.Expr }} */ node) => {
    w.write(before);
    expression(w, node.expr);
    w.write(after);
  };
}

function typed(/** @type {string} */ word) {
  return (/** @type {Writer} */ w, /** @type {{ expr: forms.Expr, type_ann: forms.TsType }} */ node) => {
    expression(w, node.expr);
    w.write(` ${word} `);
    t.type(w, node.type_ann);
  };
}

function rawText(/** @type {Writer} */ w, /** @type {{ raw: string }} */ node) {
  w.write(node.raw);
}

/** @type {import('./printers').Printers<Omit<forms.ExprVariants, 'Ident' | 'Lit' | 'PrivateName'>>} */
const EXPRESSIONS = {
  This: (w) => w.write('this'),
  Array: array,
  Object: object,
  Fn: (w, node) => at(w, node.function, () => functionOf(w, node.ident, node.function)),
  Unary: unary,
  Update: (w, node) => {
    if (node.prefix) w.write(node.op);
    expression(w, node.arg);
    if (!node.prefix) w.write(node.op);
  },
  Bin: binary,
  Assign: assign,
  Member: member,
  SuperProp: (w, node) => {
    w.write('super');
    memberProp(w, node.prop);
  },
  Cond: conditional,
  Call: (w, node) => call(w, node),
  New: newExpression,
  Seq: (w, node) => t.separated(w, node.exprs, ', ', expression),
  Tpl: (w, node) => t.template(w, node.quasis, node.exprs, expression),
  TaggedTpl: (w, node) => {
    expression(w, node.tag);
    t.typeArguments(w, node.type_params);
    tpl(w, node.tpl);
  },
  Arrow: arrow,
  Class: (w, node) => at(w, node.class, () => parts.classOf(w, node.ident, node.class)),
  Yield: (w, node) => {
    w.write(node.delegate ? 'yield*' : 'yield');
    if (!node.arg) return;
    w.write(' ');
    expression(w, node.arg);
  },
  MetaProp: (w, node) => w.write(node.kind),
  Await: (w, node) => {
    w.write('await ');
    expression(w, node.arg);
  },
  Paren: wrapped('(', ')'),
  JSXMember: rawText,
  JSXNamespacedName: rawText,
  JSXEmpty: rawText,
  JSXElement: rawText,
  JSXFragment: rawText,
  TsTypeAssertion: (w, node) => {
    // `<<` would be one sign.
    const made = node.type_ann.TsFnOrConstructorType && node.type_ann.TsFnOrConstructorType.TsFnType;
    w.write(made && made.type_params ? '< ' : '<');
    t.type(w, node.type_ann);
    w.write('>');
    expression(w, node.expr);
  },
  TsConstAssertion: wrapped('', ' as const'),
  TsNonNull: wrapped('', '!'),
  TsAs: typed('as'),
  TsSatisfies: typed('satisfies'),
  TsInstantiation: (w, node) => {
    expression(w, node.expr);
    t.typeArguments(w, node.type_args);
  },
  OptChain: chain,
  Invalid: (w) => w.write('/* invalid */'),
};

/** An expression. */
function expression(/** @type {Writer} */ w, /** @type {forms.Expr} */ choice) {
  const [variant, node] = variantOf(choice);
  if (variant === 'Ident') t.ident(w, node);
  else if (variant === 'Lit') t.literal(w, node);
  else if (variant === 'PrivateName') t.privateName(w, node);
  else if ('span' in node) at(w, node, () => printBy(EXPRESSIONS, w, variant, node));
  else printBy(EXPRESSIONS, w, variant, node);
}

function decorators(/** @type {Writer} */ w, /** @type {forms.Decorator[] | undefined} */ list, /** @type {string} */ after) {
  for (const it of list || []) {
    at(w, it, () => {
      w.write('@');
      expression(w, it.expr);
    });
    if (after === '\n') w.line();
    else w.write(after);
  }
}

module.exports = { expression, propName, functionOf, signature, body, decorators };
