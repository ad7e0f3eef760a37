'use strict';
// The types of the values that stay in skeletons, by the form of each alone. Where the form does not say the type that TypeScript's compiler finds, the value has none
// here, and that is reported.

const { spanOf, variantOf } = require('../tree/walk.js');
const { mentioned } = require('./modules.js');

/** @typedef {import('./types').Holder} Holder */
/** @typedef {import('./value-scopes.js').Scope} Scope */
/** @typedef {import('./types').Found} Found */

/** A value whose form does not say its type: where it stands, and why. */
class Untold extends Error {
  constructor(/** @type {forms.Span | null} */ span, /** @type {string} */ why) {
    super(why);
    this.span = span;
  }
}

// What holds a value: a constant itself, which keeps a literal; whatever may be written again, as a variable or a member; something behind `as const`; a property of
// a frozen object, which keeps the literals of a condition too; or what a function returns, which keeps several of them.
/** @type {['constant', 'wide', 'frozen', 'kept', 'returned']} */
const [CONSTANT, WIDE, FROZEN, KEPT, RETURNED] = ['constant', 'wide', 'frozen', 'kept', 'returned'];
/** @type {forms.Span} */
const NONE = [0, 0];
// What the holders that ask of conditions alone are to other values.
/** @type {Partial<Record<Holder, Holder>>} */
const OTHERWISE = { [KEPT]: CONSTANT, [RETURNED]: WIDE };

// ---- types

/** @type {(name: 'String' | 'Number' | 'Boolean' | 'BigInt' | 'Null' | 'Undefined' | 'Symbol' | 'Any') => forms.TsType} */
const keyword = (name) => ({ TsKeywordType: { span: NONE, kind: `Ts${name}Keyword` } });
/** @type {(lit: forms.TsLit) => forms.TsType} */
const literalType = (lit) => ({ TsLitType: { span: NONE, lit } });
/** @type {(type_name: forms.TsEntityName) => forms.TsType} */
const reference = (type_name) => ({ TsTypeRef: { span: NONE, type_name, type_params: null } });
/** @type {(name: forms.TsEntityName) => forms.TsType} */
const query = (name) => ({ TsTypeQuery: { span: NONE, expr_name: { TsEntityName: name }, type_args: null } });
/** @type {(type_ann: forms.TsType) => forms.TsType} */
const readonlyOf = (type_ann) => ({ TsTypeOperator: { span: NONE, op: 'ReadOnly', type_ann } });
/** @type {(types: forms.TsType[]) => forms.TsType} */
const unionOf = (types) => ({ TsUnionOrIntersectionType: { TsUnionType: { span: NONE, types } } });
/** @type {(type_ann: forms.TsType) => forms.TsTypeAnn} */
const annotated = (type_ann) => ({ span: NONE, type_ann });

/**
 * A type as text.
 *
 * @returns {string}
 */
function textOf(/** @type {forms.TsType} */ type) {
  const { printType } = require('../tree/print/index.js');
  return printType(type).trimEnd();
}

const isPrimitive = (/** @type {forms.TsType} */ type) => Boolean(type.TsKeywordType || type.TsLitType);

/** The members of a union, or the type alone. */
/** @type {(type: forms.TsType) => forms.TsType[]} */
const membersOf = (type) => {
  const { TsUnionOrIntersectionType: parts } = type;
  return (parts && parts.TsUnionType && parts.TsUnionType.types) || [type];
};

/**
 * Types without the literals that another of them takes in, each once.
 *
 * @returns {forms.TsType[]}
 */
function reduced(/** @type {forms.TsType[]} */ types) {
  const byText = new Map(types.flatMap(membersOf).map((it) => [textOf(it), it]));
  if (byText.has('true') && byText.has('false')) byText.set('boolean', keyword('Boolean'));
  return [...byText.values()].filter(({ TsLitType: it }) => {
    const word = it && LITERALS[variantOf(it.lit)[0]];
    return !(word && byText.has(word.toLowerCase()));
  });
}

/**
 * The types of the elements of an array type or a tuple; null of another type.
 *
 * @returns {forms.TsType[] | null}
 */
function elementTypes(/** @type {forms.TsType} */ type) {
  if (type.TsTypeOperator && type.TsTypeOperator.op === 'ReadOnly') return elementTypes(type.TsTypeOperator.type_ann);
  if (type.TsArrayType) return [type.TsArrayType.elem_type];
  return type.TsTupleType ? (type.TsTupleType.elem_types || []).map((it) => it.ty) : null;
}

/**
 * The union of types of which none may take in another: of one type that type, of primitive ones each once.
 *
 * @returns {forms.TsType}
 */
function joined(/** @type {forms.TsType[]} */ types, /** @type {forms.Span | null} */ span, /** @type {string} */ why) {
  const made = reduced(types);
  if (made.length === 1) return made[0];
  if (!made.length || !made.every(isPrimitive)) throw new Untold(span, why);
  return unionOf(made);
}

/** @type {Partial<Record<keyof forms.LitVariants | keyof forms.TsLitVariants, 'String' | 'Number' | 'Boolean' | 'BigInt'>>} */
const LITERALS = { Str: 'String', Num: 'Number', Number: 'Number', Bool: 'Boolean', BigInt: 'BigInt' };

/**
 * The type of a literal that something holds.
 *
 * @param {forms.Lit | forms.TsLit} lit
 * @param {Holder} holder
 * @returns {forms.TsType}
 */
function literal(lit, holder) {
  const [variant] = variantOf(lit);
  const word = LITERALS[variant];
  if (variant === 'Regex') return reference({ Ident: { span: NONE, sym: 'RegExp' } });
  if (!word) return keyword('Null');
  return holder === WIDE ? keyword(word) : literalType(/** @type {forms.TsLit} */ (lit));
}

// ---- names

/**
 * A name with dots as a type names it, or null of any other value.
 *
 * @returns {forms.TsEntityName | null}
 */
function entityOf(/** @type {forms.Expr} */ value) {
  if (value.Ident) return { Ident: value.Ident };
  const { Member: member } = value;
  const right = member && member.prop.Ident;
  const left = right && entityOf(member.obj);
  return left ? { TsQualifiedName: { span: member.span, left, right } } : null;
}

/** Whether a type is `unique symbol`. */
const isUnique = (/** @type {forms.TsType | undefined} */ type) => Boolean(type && type.TsTypeOperator && type.TsTypeOperator.op === 'Unique');

/** Whether a value is a symbol that the language knows, as `Symbol.iterator`. */
function isKnownSymbol(/** @type {forms.Expr} */ { Member: member }, /** @type {Scope} */ scope) {
  const of = member && member.obj.Ident && member.obj.Ident.sym === 'Symbol' && scope.find(member.obj);
  return Boolean(of && of.form === 'other' && !of.nodes);
}

/**
 * The literal of a value that is one, behind a minus too: `{lit, isNegative}`, or null.
 *
 * @returns {{ lit: forms.Lit, isNegative: boolean } | null}
 */
function literalOf(/** @type {forms.Expr} */ value) {
  if (value.Paren) return literalOf(value.Paren.expr);
  if (value.Lit) return LITERALS[variantOf(value.Lit)[0]] ? { lit: value.Lit, isNegative: false } : null;
  const { Unary: unary } = value;
  const lit = unary && unary.op === '-' && unary.arg.Lit;
  return lit && (lit.Num || lit.BigInt) ? { lit, isNegative: true } : null;
}

/**
 * The literal in whose place the program wrote its type, of what a name stands for; null of another value.
 *
 * @returns {forms.TsLit | null}
 */
function madeLiteral(/** @type {Found} */ found) {
  const { form, type, value, scope } = found;
  if (form === 'typed') return (found.isMade && type && type.TsLitType && type.TsLitType.lit) || null;
  const isName = form === 'value' && !found.nodes && value && (value.Ident || value.Member);
  return isName && scope ? madeLiteral(scope.find(value)) : null;
}

/**
 * A type of a literal behind a minus.
 *
 * @returns {forms.TsType}
 */
function negative(/** @type {forms.Lit} */ lit, /** @type {Holder} */ holder) {
  if (holder === WIDE) return literal(lit, WIDE);
  const { Num: number, BigInt: big } = lit;
  if (big) return literalType({ BigInt: { ...big, raw: `-${big.raw}` } });
  return number ? literalType(/** @type {forms.TsLit} */ (/** @type {unknown} */ ({ Num: { ...number, raw: `-${number.raw}` } }))) : literal(lit, holder);
}

// What `typeof` may say, in the order of the compiler's declarations.
const TYPE_NAMES = ['string', 'number', 'bigint', 'boolean', 'symbol', 'undefined', 'object', 'function'];

// The comparisons by which a condition tells more of what a name stands for.
const TESTS = new Set(['==', '!=', '===', '!==', 'in', 'instanceof']);
const COMPARISONS = new Set(['==', '!=', '===', '!==', '<', '<=', '>', '>=', 'in', 'instanceof']);
const ARITHMETIC = new Set(['+', '-', '*', '/', '%', '**', '<<', '>>', '>>>', '&', '|', '^']);

/**
 * The keyword of an expression that is a number or a text by its form, else null.
 *
 * @returns {'String' | 'Number' | 'Boolean' | null}
 */
function operand(/** @type {forms.Expr} */ value) {
  if (value.Paren) return operand(value.Paren.expr);
  if (value.Tpl) return 'String';
  if (value.Bin) return operation(value.Bin);
  if (value.Unary) return unary(value.Unary);
  const found = literalOf(value);
  return found && found.lit.Num ? 'Number' : found && found.lit.Str ? 'String' : null;
}

/** @returns {'String' | 'Number' | 'Boolean' | null} */
function unary(/** @type {forms.UnaryExpr} */ { op, arg }) {
  if (op === '+') return 'Number';
  if (op === 'typeof') return 'String';
  return (op === '-' || op === '~') && operand(arg) === 'Number' ? 'Number' : null;
}

/** @returns {'String' | 'Number' | 'Boolean' | null} */
function operation(/** @type {forms.BinExpr} */ { op, left, right }) {
  if (COMPARISONS.has(op)) return 'Boolean';
  const sides = [operand(left), operand(right)];
  if (op === '+' && sides.includes('String')) return 'String';
  return ARITHMETIC.has(op) && sides.every((it) => it === 'Number') ? 'Number' : null;
}

/**
 * Whether a value compares something with what a name stands for, so that where it holds, the compiler may know a narrower type of that name.
 *
 * @returns {boolean}
 */
function isTestOf(/** @type {forms.Expr} */ value, /** @type {Set<string>} */ names) {
  if (value.Paren) return isTestOf(value.Paren.expr, names);
  return Boolean(value.Bin && TESTS.has(value.Bin.op) && [...mentioned(value.Bin).names].some((it) => names.has(it)));
}

/** The names of parameters that are no patterns, but for those of type `boolean`, of which the compiler makes no type predicate. */
function plainNames(/** @type {forms.Pat[]} */ params) {
  return new Set(params.flatMap((it) => {
    const { Ident: name } = it.Assign ? it.Assign.left : it;
    const type = name && name.type_ann && name.type_ann.type_ann.TsKeywordType;
    return name && !(type && type.kind === 'TsBooleanKeyword') ? [name.id.sym] : [];
  }));
}

/**
 * Types of values in one scope. `scope.find(name)` says what a value that is a name stands for: `{form, ..}`, with the forms `typed` (with its `type`, which `isSaid`
 * says may stand in its place, and of which `isMade` says that it is that of a literal, which the program wrote), `value` (a constant without a written type: its `value` and its own `scope`), `member` of an enum, `other` (a class, a function, a
 * namespace, a variable that is global), or `unknown`, as what another package declares.
 */
class ValueTypes {
  constructor(/** @type {Scope} */ scope) {
    this.scope = scope;
  }

  /**
   * The type of a value that something holds.
   *
   * @returns {forms.TsType}
   */
  of(/** @type {forms.Expr} */ value, /** @type {Holder} */ holder) {
    const [variant, node] = variantOf(value);
    const inner = value.Cond || value.Paren ? holder : OTHERWISE[holder] || holder;
    const own = /** @type {Partial<Record<string, (node: object, holder: Holder, value: forms.Expr) => forms.TsType>>} */ (/** @type {unknown} */ (this))[variant];
    if (own) return own.call(this, node, inner, value);
    throw new Untold(spanOf(value), 'the form of the value does not say its type');
  }

  /** @returns {forms.TsType} */
  Lit(/** @type {forms.Lit} */ node, /** @type {Holder} */ holder) {
    return literal(node, holder);
  }

  /** @returns {forms.TsType} */
  Paren(/** @type {forms.ParenExpr} */ { expr }, /** @type {Holder} */ holder) {
    return this.of(expr, holder);
  }

  /** @returns {forms.TsType} */
  TsAs(/** @type {forms.TsAsExpr} */ { type_ann }) {
    return type_ann;
  }

  /** @returns {forms.TsType} */
  TsTypeAssertion(/** @type {forms.TsTypeAssertion} */ { type_ann }) {
    return type_ann;
  }

  /** @returns {forms.TsType} */
  TsConstAssertion(/** @type {forms.TsConstAssertion} */ { expr }) {
    return this.of(expr, FROZEN);
  }

  /** @returns {forms.TsType} */
  Unary(/** @type {forms.UnaryExpr} */ node, /** @type {Holder} */ holder, /** @type {forms.Expr} */ value) {
    const found = literalOf(value);
    if (found) return negative(found.lit, holder);
    const { op, arg } = node;
    if (op === 'void') return keyword('Undefined');
    if (op === 'typeof') return unionOf(TYPE_NAMES.map((name) => literalType({ Str: { span: NONE, value: name, raw: null } })));
    if (op === '+' && arg.Lit && arg.Lit.Num) return literal(arg.Lit, holder);
    if (op === '!' && holder === WIDE) return keyword('Boolean');
    if (operand(value) === 'Number') return keyword('Number');
    throw new Untold(node.span, `the type of an expression with \`${op}\` depends on its operand`);
  }

  /** @returns {forms.TsType} */
  Tpl(/** @type {forms.Tpl} */ node, /** @type {Holder} */ holder) {
    const [piece] = node.quasis || [];
    if (holder === WIDE || !piece || (node.exprs || []).length) {
      if (holder === FROZEN) throw new Untold(node.span, 'a constant template with parts has the type of its parts');
      return keyword('String');
    }
    return literalType({ Str: { span: NONE, value: piece.cooked || '', raw: null } });
  }

  /** @returns {forms.TsType} */
  Bin(/** @type {forms.BinExpr} */ node) {
    const found = operation(node);
    if (!found) throw new Untold(node.span, `the type of an expression with \`${node.op}\` depends on its operands`);
    return keyword(found);
  }

  /** @returns {forms.TsType} */
  Cond(/** @type {forms.CondExpr} */ { span }, /** @type {Holder} */ holder, /** @type {forms.Expr} */ value) {
    const told = (/** @type {Holder} */ inner) => joined(this.branches(value, inner), span, 'the branches of the condition have several types');
    if (holder === FROZEN || holder === WIDE) return told(holder);
    if (holder === KEPT) return told(CONSTANT);
    // Of one literal a constant keeps it, and what a function returns is wider; of several ones it is the other way round.
    const isOne = reduced(this.branches(value, CONSTANT)).length === 1;
    return told(isOne === (holder === CONSTANT) ? CONSTANT : WIDE);
  }

  /**
   * The types of the branches of a condition, and of those within; `tested` are the names that the conditions around them test.
   *
   * @returns {forms.TsType[]}
   */
  branches(/** @type {forms.Expr} */ value, /** @type {Holder} */ holder, /** @type {string[]} */ tested = []) {
    if (value.Paren) return this.branches(value.Paren.expr, holder, tested);
    if (value.Cond) {
      const { test, cons, alt } = value.Cond;
      return [cons, alt].flatMap((it) => this.branches(it, holder, [...tested, ...this.variables(test)]));
    }
    if (!operand(value) && this.variables(value).some((it) => tested.includes(it))) {
      throw new Untold(spanOf(value), 'the condition tests a name that is read here, which may have a narrower type');
    }
    return [this.of(value, holder)];
  }

  /** The names in a value that stand for no class, function, namespace or global variable: a test may narrow their types. */
  variables(/** @type {forms.Expr} */ value) {
    return [...mentioned(value).names].filter((sym) => this.scope.find({ Ident: { span: NONE, ctxt: 0, sym, optional: false } }).form !== 'other');
  }

  /** @returns {forms.TsType} */
  New(/** @type {forms.NewExpr} */ { callee }) {
    return reference(/** @type {forms.TsEntityName} */ (entityOf(callee)));
  }

  /** @returns {forms.TsType} */
  Ident(/** @type {forms.Ident} */ node, /** @type {Holder} */ holder, /** @type {forms.Expr} */ value) {
    if (node.sym === 'undefined' && this.scope.find(value).form === 'other') return keyword('Undefined');
    return this.named(value, holder);
  }

  /** @returns {forms.TsType} */
  Member(/** @type {forms.MemberExpr} */ node, /** @type {Holder} */ holder, /** @type {forms.Expr} */ value) {
    return node.prop.Computed ? this.indexed(node, holder) : this.named(value, holder);
  }

  /**
   * Whether a value is the name of a symbol that is one of its kind, which another constant is not.
   *
   * @returns {boolean}
   */
  isSymbol(/** @type {forms.Expr} */ value) {
    if (value.Paren) return this.isSymbol(value.Paren.expr);
    if (!value.Ident && !value.Member) return false;
    const found = this.scope.find(value);
    if (found.form === 'value' && !found.nodes && found.scope && found.value) return new ValueTypes(found.scope).isSymbol(found.value);
    return found.form === 'typed' ? isUnique(found.type) : found.form === 'other' && isKnownSymbol(value, this.scope);
  }

  /**
   * A member under a literal, of what a name stands for that is no enum.
   *
   * @returns {forms.TsType}
   */
  indexed(/** @type {forms.MemberExpr} */ { obj, prop, span }, /** @type {Holder} */ holder) {
    const [name, key] = [entityOf(obj), prop.Computed ? literalOf(prop.Computed.expr) : null];
    const found = name && this.scope.find(obj);
    const isTold = found && (found.form === 'typed' || found.form === 'value' || (holder !== WIDE && !found.nodes));
    if (!name || !isTold || !key || key.isNegative) throw new Untold(span, 'the type of a member of a value that has no name');
    return { TsIndexedAccessType: { span: NONE, readonly: false, obj_type: query(name), index_type: literalType(/** @type {forms.TsLit} */ (key.lit)) } };
  }

  /**
   * The type of what a name stands for. A literal and a member of an enum that may be written again have a wider type than their own.
   *
   * @returns {forms.TsType}
   */
  named(/** @type {forms.Expr} */ value, /** @type {Holder} */ holder) {
    const name = entityOf(value);
    const span = spanOf(value);
    if (!name) throw new Untold(span, 'the type of a member of a value that has no name');
    const found = this.scope.find(value);
    if (found.isSaid && found.type) return found.type;
    if (found.form === 'member' && holder !== WIDE) return reference(name);
    if (holder !== WIDE) return query(name);
    if (found.form === 'other' && isKnownSymbol(value, this.scope)) return keyword('Symbol');
    if (found.form === 'other') return query(name);
    const made = found.isMade && madeLiteral(found);
    if (made) return literal(made, WIDE);
    if (found.form === 'typed') return isUnique(found.type) ? keyword('Symbol') : query(name);
    if (this.isSymbol(value)) return keyword('Symbol');
    if (found.form === 'value' && found.scope && found.value) return new ValueTypes(found.scope).again(found.value, name, span);
    if (found.form === 'member' && value.Member && value.Member.obj.Ident) return reference({ Ident: value.Member.obj.Ident });
    throw new Untold(span, 'what the name stands for is declared in another package or in another form, and may be a literal');
  }

  /**
   * The type of a name that stands for a value without a written type, where it may be written again.
   *
   * @returns {forms.TsType}
   */
  again(/** @type {forms.Expr} */ value, /** @type {forms.TsEntityName} */ name, /** @type {forms.Span | null} */ span) {
    const found = literalOf(value);
    if (found) return literal(found.lit, WIDE);
    if (!value.Ident && !value.Member) return query(name);
    const behind = this.scope.find(value);
    const made = madeLiteral(behind);
    if (made) return literal(made, WIDE);
    if (behind.form === 'other' || (behind.form === 'typed' && !isUnique(behind.type))) return query(name);
    throw new Untold(span, 'the name stands for a constant that has no written type');
  }

  // ---- functions

  /** @returns {forms.TsType} */
  Fn(/** @type {forms.FnExpr} */ { function: node }) {
    return this.functionType(node, /** @type {forms.TsTypeAnn} */ (node.return_type));
  }

  /** @returns {forms.TsType} */
  Arrow(/** @type {forms.ArrowExpr} */ node) {
    if (node.return_type) return this.functionType(node, node.return_type);
    if (node.is_async || !node.body.Expr) throw new Untold(node.span, 'the function has no written return type');
    if (isTestOf(node.body.Expr, plainNames(node.params || []))) throw new Untold(node.span, 'a function that answers a test of its parameter may have a type predicate');
    const inner = new ValueTypes(this.scope.within(node.params));
    return this.functionType(node, annotated(inner.of(node.body.Expr, RETURNED)));
  }

  /** @returns {forms.TsType} */
  functionType(/** @type {{ params?: (forms.Param | forms.Pat)[], type_params?: forms.TsTypeParamDecl | null }} */ { params, type_params }, /** @type {forms.TsTypeAnn} */ type_ann) {
    const made = /** @type {forms.Pat[]} */ (/** @type {(forms.Param | forms.Pat)[]} */ (this.parameters(params || [])));
    return { TsFnOrConstructorType: { TsFnType: { span: NONE, params: made, type_params, type_ann } } };
  }

  /**
   * Parameters without values: one with a default may be left out, where all behind it may. A pattern that may be undefined cannot stand, and a name does.
   *
   * @template {forms.Pat | forms.Param} P
   * @param {P[]} list
   * @returns {P[]}
   */
  parameters(list) {
    const patterns = list.map((it) => /** @type {forms.Pat} */ ('pat' in it ? it.pat : it));
    const isOptional = (/** @type {forms.Part} */ it) => Boolean(it.optional);
    const mayGo = (/** @type {forms.Pat} */ it) => Boolean(it.Assign || it.Rest || (it.Ident && it.Ident.id.optional) || isOptional(it.Object || it.Array || {}));
    return list.map((whole, place) => {
      const it = patterns[place];
      const made = it.Assign ? this.withoutDefault(it.Assign, patterns.slice(place).every(mayGo), `param${place}`) : it;
      return /** @type {P} */ ('pat' in whole ? { ...whole, pat: made } : made);
    });
  }

  /** @returns {forms.Pat} */
  withoutDefault(/** @type {forms.AssignPat} */ { left, right }, /** @type {boolean} */ isOptional, /** @type {string} */ name) {
    const node = /** @type {{ span: forms.Span, type_ann?: forms.TsTypeAnn | null }} */ (variantOf(left)[1]);
    const written = node.type_ann ? node.type_ann.type_ann : this.of(right, WIDE);
    const type_ann = annotated(isOptional ? written : unionOf([written, keyword('Undefined')]));
    const id = left.Ident ? left.Ident.id : { span: node.span, ctxt: 0, sym: name };
    return { Ident: { id: { ...id, optional: isOptional }, type_ann } };
  }

  // ---- arrays and objects

  /** @returns {forms.TsType} */
  Array(/** @type {forms.ArrayLit} */ { elems, span }, /** @type {Holder} */ holder) {
    const types = (elems || []).flatMap((it) => {
      if (!it) throw new Untold(span, 'the array has a hole');
      if (it.spread) return this.elementsOf(it.expr, holder);
      return [this.of(it.expr, holder === FROZEN ? FROZEN : WIDE)];
    });
    if (holder !== FROZEN) return { TsArrayType: { span: NONE, elem_type: joined(types, span, 'the elements of the array have none or several types') } };
    return readonlyOf({ TsTupleType: { span: NONE, elem_types: types.map((ty) => ({ span: NONE, ty })) } });
  }

  /**
   * The types of the elements that an array takes over from another one, where these are no names, which may stand for something else here.
   *
   * @returns {forms.TsType[]}
   */
  elementsOf(/** @type {forms.Expr} */ value, /** @type {Holder} */ holder) {
    if (holder !== FROZEN && operand(value) === 'String') return [keyword('String')];
    /** @type {Found} */
    const found = entityOf(value) ? this.scope.find(value) : { form: 'value', value, scope: this.scope };
    const written = found.form === 'typed' ? found.type : null;
    const type = found.form === 'value' && !found.nodes && found.scope && found.value ? new ValueTypes(found.scope).of(found.value, CONSTANT) : written;
    const elements = type && elementTypes(type);
    if (holder === FROZEN || !elements || !elements.every(isPrimitive)) {
      throw new Untold(spanOf(value), 'the array has elements of another one, whose types its form does not say');
    }
    return elements;
  }

  /** @returns {forms.TsType} */
  Object(/** @type {forms.ObjectLit} */ { props, span }, /** @type {Holder} */ holder, /** @type {forms.Expr} */ value, /** @type {Holder} */ held = holder === FROZEN ? FROZEN : WIDE) {
    const members = (props || []).map((it) => {
      if (it.Spread) throw new Untold(span, 'the object has the properties of another one');
      const { Shorthand: name, KeyValue: pair } = it.Prop;
      if (name) return this.property(name.span, { Ident: name }, { Ident: name }, held);
      const { key, value: held_ } = /** @type {forms.KeyValueProp} */ (pair);
      return this.property(variantOf(key)[1].span, key, held_, held);
    });
    return { TsTypeLit: { span, members } };
  }

  /** @returns {forms.TsTypeElement} */
  property(/** @type {forms.Span} */ span, /** @type {forms.PropName} */ key, /** @type {forms.Expr} */ value, /** @type {Holder} */ holder) {
    const plain = key.Ident ? { Ident: { span: key.Ident.span, sym: key.Ident.sym, optional: false } } : { Lit: /** @type {forms.Lit} */ (key) };
    const named = key.Computed ? { key: this.computed(key.Computed), computed: true } : { key: plain, computed: false };
    return { TsPropertySignature: { span, readonly: holder === FROZEN, optional: false, ...named, type_ann: annotated(this.of(value, holder)) } };
  }

  /**
   * A computed key that a type may have: a name of a symbol or of a literal.
   *
   * @returns {forms.Expr}
   */
  computed(/** @type {forms.ComputedPropName} */ { expr, span }) {
    if (literalOf(expr)) return expr;
    const found = entityOf(expr) && this.scope.find(expr);
    const isGlobalSymbol = expr.Member && expr.Member.obj.Ident && expr.Member.obj.Ident.sym === 'Symbol' && found && found.form === 'other';
    if (isGlobalSymbol || (found && found.form === 'typed' && (isUnique(found.type) || (found.type && found.type.TsLitType)))) return expr;
    throw new Untold(span, 'the computed key is no symbol and no literal by its form');
  }

  /**
   * `Object.freeze(value)`, the one call that stays. The properties of a frozen object keep literals.
   *
   * @returns {forms.TsType}
   */
  Call(/** @type {forms.CallExpr} */ { args = [], span }) {
    const [{ expr }] = args;
    if (expr.Array) return readonlyOf(this.of(expr, WIDE));
    if (!expr.Object) throw new Untold(span, 'the type of a frozen value is told of an array and an object alone');
    const params = [this.Object(expr.Object, WIDE, expr, KEPT)];
    return { TsTypeRef: { span: NONE, type_name: { Ident: { span: NONE, sym: 'Readonly' } }, type_params: { span: NONE, params } } };
  }
}

module.exports = { CONSTANT, KEPT, WIDE, Untold, ValueTypes, annotated, isUnique, keyword, literalOf, madeLiteral, textOf };
