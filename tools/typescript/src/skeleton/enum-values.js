'use strict';
// The values of the members of enums, as far as they are constant by their form.

const { isFrom } = require('../compiler/typescript.js');

/** @typedef {import('./types').EnumScope} EnumScope */

/** @typedef {number | string | undefined} Value */

/** @type {Record<string, (a: number, b: number) => number>} */
const OPERATIONS = {
  '+': (a, b) => a + b, '-': (a, b) => a - b, '*': (a, b) => a * b, '/': (a, b) => a / b, '%': (a, b) => a % b, '**': (a, b) => a ** b,
  '|': (a, b) => a | b, '&': (a, b) => a & b, '^': (a, b) => a ^ b, '<<': (a, b) => a << b, '>>': (a, b) => a >> b, '>>>': (a, b) => a >>> b,
};
/** @type {Record<string, (a: number) => number>} */
const SIGNS = { '+': (a) => +a, '-': (a) => -a, '~': (a) => ~a };

/** @type {Record<string, number>} */
const NUMBERS = { NaN, Infinity };

const nameOf = (/** @type {forms.TsEnumMember} */ { id }) => (id.Str ? id.Str.value : id.Ident.sym);

/** The values of one enum's members: those before the one at hand are known. `scope` finds other enums; those of `sought` are at work already. */
class EnumValues {
  constructor(/** @type {forms.TsEnumDecl} */ node, /** @type {EnumScope} */ scope, sought = new Set()) {
    this.node = node;
    this.scope = scope;
    this.sought = new Set([...sought, node]);
    /** @type {Map<string, Value>} */
    this.known = new Map();
  }

  /**
   * The values of the members, in order; undefined where one is not constant.
   *
   * @returns {Value[]}
   */
  all() {
    /** @type {number | undefined} */
    let next = 0;
    return (this.node.members || []).map((member) => {
      const value = member.init ? this.value(member.init) : next;
      next = typeof value === 'number' ? value + 1 : undefined;
      this.known.set(nameOf(member), value);
      return value;
    });
  }

  /** @returns {Value} */
  value(/** @type {forms.Expr} */ expr) {
    if (expr.Paren) return this.value(expr.Paren.expr);
    if (expr.Lit) return this.literal(expr.Lit);
    if (expr.Tpl) return this.template(expr.Tpl);
    if (expr.Unary) return this.signed(expr.Unary);
    if (expr.Bin) return this.operation(expr.Bin);
    if (expr.Ident) return this.named(expr.Ident.sym);
    return expr.Member ? this.other(expr.Member) : undefined;
  }

  /** @returns {Value} */
  template(/** @type {forms.Tpl} */ { quasis = [], exprs = [] }) {
    if (exprs.length && !isFrom(5, 0)) return undefined;
    const parts = exprs.map((it) => this.value(it));
    return parts.includes(undefined) ? undefined : quasis.map((it, place) => `${it.cooked}${place < parts.length ? parts[place] : ''}`).join('');
  }

  /**
   * A member of the enum, or of another declaration of it; else a number that has a name.
   *
   * @returns {Value}
   */
  named(/** @type {string} */ name) {
    if (this.known.has(name)) return this.known.get(name);
    const value = this.memberOf(this.scope.find({ Ident: this.node.id }), name);
    return value === undefined ? NUMBERS[name] : value;
  }

  /** @returns {Value} */
  literal(/** @type {forms.Lit} */ { Num, Str }) {
    if (Num) return Number(Num.raw.replace(/_/g, ''));
    return Str ? Str.value : undefined;
  }

  /** @returns {Value} */
  signed(/** @type {forms.UnaryExpr} */ { op, arg }) {
    const value = this.value(arg);
    return SIGNS[op] && typeof value === 'number' ? SIGNS[op](value) : undefined;
  }

  /** @returns {Value} */
  operation(/** @type {forms.BinExpr} */ { op, left, right }) {
    const [a, b] = [this.value(left), this.value(right)];
    if (a === undefined || b === undefined || !OPERATIONS[op]) return undefined;
    if (typeof a === 'number' && typeof b === 'number') return OPERATIONS[op](a, b);
    const isText = op === '+' && (isFrom(5, 0) || (typeof a === 'string' && typeof b === 'string'));
    return isText ? `${a}${b}` : undefined;
  }

  /**
   * The value of a member of an enum that is named before it.
   *
   * @returns {Value}
   */
  other(/** @type {forms.MemberExpr} */ { obj, prop }) {
    const name = prop.Ident ? prop.Ident.sym : prop.Computed && prop.Computed.expr.Lit && prop.Computed.expr.Lit.Str && prop.Computed.expr.Lit.Str.value;
    if (!name || !(obj.Ident || obj.Member)) return undefined;
    return this.memberOf(this.scope.find(obj), name);
  }

  /** @returns {Value} */
  memberOf(/** @type {import('./types').Found} */ { nodes, scope }, /** @type {string} */ name) {
    const enums = /** @type {forms.TsEnumDecl[]} */ ((nodes || []).filter((it) => it.members));
    const found = enums.find((it) => (it.members || []).some((each) => nameOf(each) === name));
    if (found === this.node) return this.known.get(name);
    if (!found || !scope || this.sought.has(found)) return undefined;
    const inner = new EnumValues(found, scope, this.sought);
    inner.all();
    return inner.known.get(name);
  }
}

/** The values of an enum's members, in order; undefined where one is not constant by its form. */
function enumValues(/** @type {forms.TsEnumDecl} */ node, /** @type {EnumScope} */ scope) {
  return new EnumValues(node, scope).all();
}

module.exports = { enumValues };
