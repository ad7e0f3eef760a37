'use strict';
// What is wrong with skeletons that the program does not know: names that it wrote and that stand for something else in the module, and literals that are wider in
// the source.

const { traitsOf } = require('../program/answers.js');
const { partsOf, variantOf } = require('../tree/walk.js');
const { scopesOf } = require('./value-scopes.js');
const { madeLiteral, textOf } = require('./value-types.js');
const { Names } = require('./modules.js');

/** @typedef {import('../program/types').SkeletonWorld} SkeletonWorld */
/** @typedef {import('../program/types').SourceFile} SourceFile */
/** @typedef {import('./types').Placed} Placed */
/** @typedef {import('./value-scopes.js').Scope} Scope */
/** @typedef {import('./types').Holder} Holder */
/** @typedef {import('./types').FoundLiteral} FoundLiteral */

/** @type {(span: forms.Span | null | undefined) => boolean} */
const isWritten = (span) => Boolean(span && span[0] > 0);

/** The declaration of an item, or undefined. */
function declarationOf(/** @type {forms.ModuleItem} */ { Stmt, ModuleDecl }) {
  return Stmt ? Stmt.Decl : ModuleDecl.ExportDecl && ModuleDecl.ExportDecl.decl;
}

const NO_DECLARATION = { TsModule: undefined };

/** The items of a namespace, behind all its names. */
function itemsOf(/** @type {forms.TsModuleDecl} */ node) {
  let { body } = node;
  while (body && body.TsNamespaceDecl) body = body.TsNamespaceDecl.body;
  return (body && body.TsModuleBlock && body.TsModuleBlock.body) || [];
}

// ---- names that the program wrote

/** The names of a body that stand for types: of classes, interfaces, aliases, enums and imports. */
function typeNames(/** @type {forms.ModuleItem[]} */ items) {
  const { declared, imported } = new Names({ body: items });
  const isInterface = (/** @type {forms.Part} */ { body }) => Boolean(body && 'body' in body && Array.isArray(body.body));
  const isType = (/** @type {import('./types').Declared} */ { node }) => Boolean(node.class || node.members || (node.id && node.type_ann) || isInterface(node) || node.TsEntityName);
  return [...imported.keys(), ...[...declared].filter(([, all]) => all.some(isType)).map(([name]) => name)];
}

/** The items of all blocks of each namespace of a body, by its name. */
function blocksByName(/** @type {forms.ModuleItem[]} */ items) {
  /** @type {Map<string, forms.ModuleItem[]>} */
  const found = new Map();
  for (const it of items) {
    const { TsModule: node } = declarationOf(it) || NO_DECLARATION;
    if (node && node.id.Ident) found.set(node.id.Ident.sym, [...(found.get(node.id.Ident.sym) || []), ...itemsOf(node)]);
  }
  return found;
}

/** The place of the name that a declaration or a member has. */
function placeOf(/** @type {forms.Part} */ { ident, key, name }) {
  const pattern = /** @type {forms.Part | undefined} */ (name && typeof name === 'object' ? name : undefined);
  const variable = /** @type {forms.BindingIdent | undefined} */ (pattern && pattern.Ident);
  const named = /** @type {forms.Part | undefined} */ (ident || (key && typeof key === 'object' && Object.values(key)[0]) || (variable && variable.id));
  return (named && isWritten(named.span) && named.span) || null;
}

/** @typedef {{ node: forms.Part, around: Around | null }} Around a part with those that it lies in */

/**
 * The place of the innermost name of a declaration or a member around a part, else of the outermost part that has one.
 *
 * @returns {forms.Span | null}
 */
function placeIn(/** @type {Around} */ { node, around }) {
  const named = placeOf(node);
  if (named) return named;
  const outer = around && placeIn(around);
  return outer === null && node.span && isWritten(node.span) ? node.span : outer;
}

/**
 * Calls back for each reference to a type by a name that the program wrote, with the names of types that are seen there, and the place around it.
 *
 * @param {forms.ModuleItem[]} items
 * @param {Iterable<string>} names
 * @param {(name: string, seen: Set<string>, span: forms.Span | null) => void} call
 */
function eachMade(items, names, call) {
  /** @type {(node: forms.Part, seen: Set<string>, around: Around | null) => void} */
  const walk = (node, seen, around) => {
    const { TsTypeRef: type, type_params: parameters } = node;
    const name = type && !isWritten(type.span) && type.type_name.Ident;
    const here = { node, around };
    if (name && !isWritten(name.span)) call(name.sym, seen, placeIn(here));
    const own = /** @type {forms.Part[]} */ ((parameters && parameters.params) || []).flatMap(({ name: it }) => (it && typeof it === 'object' && 'sym' in it ? it.sym : []));
    const inside = own.length ? new Set([...seen, ...own]) : seen;
    for (const each of partsOf(node)) walk(each, inside, here);
  };
  const seen = new Set([...names, ...typeNames(items)]);
  const blocks = blocksByName(items);
  for (const item of items) {
    const { TsModule: node } = declarationOf(item) || NO_DECLARATION;
    if (node && node.id.Ident) eachMade(itemsOf(node), new Set([...seen, ...typeNames(blocks.get(node.id.Ident.sym) || [])]), call);
    else walk(item, seen, null);
  }
}

/** The names of global types that the program wrote into a module, and that stand for something else there: each with its place. */
function shadowed(/** @type {forms.ModuleItem[]} */ items) {
  /** @type {{ name: string, span: forms.Span | null }[]} */
  const found = [];
  eachMade(items, [], (name, seen, span) => {
    if (seen.has(name)) found.push({ name, span });
  });
  return found;
}

/**
 * Names that stand for something else, as messages.
 *
 * @returns {import('../messages/types').Message[]}
 */
function shadowedMessages(/** @type {forms.ModuleItem[]} */ items, /** @type {Placed} */ placed) {
  return shadowed(items).map(({ name, span }) => placed(span, {
    level: 'Error', code: 'shadowed-global', message: `the type that is not written here is the global '${name}', and the module has another '${name}'`,
    hint: `write the type, with \`globalThis.${name}\``, info: ['the name in the skeleton would stand for the one of the module'],
  }));
}

// ---- literals

/** @type {['constant', 'wide', 'frozen']} */
const [CONSTANT, WIDE, FROZEN] = ['constant', 'wide', 'frozen'];

/** The written type of a pattern. */
function typeOf(/** @type {forms.Pat} */ pattern) {
  const node = variantOf(pattern)[1];
  return 'type_ann' in node ? node.type_ann : null;
}

/** Looks for the names of constants in values that may be written again. */
class Literals {
  constructor(/** @type {Scope} */ scope, /** @type {FoundLiteral[]} */ found) {
    this.scope = scope;
    this.found = found;
  }

  items(/** @type {forms.ModuleItem[]} */ list) {
    for (const item of list) {
      const { ExportDefaultDecl, ExportDefaultExpr } = /** @type {Partial<forms.ModuleDeclVariants>} */ (item.ModuleDecl || {});
      const decl = declarationOf(item);
      if (ExportDefaultExpr) this.value(ExportDefaultExpr.expr, CONSTANT);
      else if (ExportDefaultDecl) this.defaultDeclaration(ExportDefaultDecl.decl);
      else if (decl) this.declaration(decl);
    }
  }

  defaultDeclaration(/** @type {forms.DefaultDecl} */ { Fn: made, Class: it }) {
    if (made) this.parameters(made.function.params);
    for (const each of (it && it.class.body) || []) this.member(each);
  }

  declaration(/** @type {forms.Decl} */ { Var: variable, Using: using, Fn: made, Class: it, TsModule: space }) {
    const list = variable || using;
    if ([variable, made, it, space].some((node) => node && node.declare)) return;
    const untyped = ((list && list.decls) || []).filter(({ name }) => !typeOf(name));
    for (const { init } of untyped) if (init) this.value(init, variable && variable.kind === 'Const' ? CONSTANT : WIDE);
    if (made) this.parameters(made.function.params);
    for (const each of (it && it.class.body) || []) this.member(each);
    if (space && space.id.Ident && space.body) {
      const all = space.body.TsNamespaceDecl ? itemsOf(space) : this.scope.blocks(space.id.Ident.sym);
      new Literals(this.scope.inside(all), this.found).items(itemsOf(space));
    }
  }

  member(/** @type {forms.ClassMember} */ { ClassProp: property, Method: method, Constructor: made }) {
    if (property && property.value && !property.type_ann) this.value(property.value, property.readonly ? CONSTANT : WIDE);
    if (method) this.parameters(method.function.params);
    if (made) this.parameters((made.params || []).map((it) => it.Param || it.TsParamProp.param));
  }

  parameters(/** @type {(forms.Pat | forms.Param | forms.TsParamPropParam)[] | undefined} */ list) {
    for (const each of list || []) {
      const { Assign: it } = /** @type {forms.Pat} */ ('pat' in each ? each.pat : each);
      if (it && !typeOf(it.left)) this.value(it.right, WIDE);
    }
  }

  value(/** @type {forms.Expr} */ choice, /** @type {Holder} */ holder) {
    const [variant, node] = variantOf(choice);
    const own = /** @type {Partial<Record<string, (node: object, holder: Holder, value: forms.Expr) => void>>} */ (/** @type {unknown} */ (this))[variant];
    if (own) own.call(this, node, holder, choice);
  }

  Ident(/** @type {forms.Ident | forms.MemberExpr} */ node, /** @type {Holder} */ holder, /** @type {forms.Expr} */ choice) {
    const lit = holder === WIDE && madeLiteral(this.scope.find(choice));
    const member = choice.Member && choice.Member.prop.Ident;
    const { sym = '' } = 'sym' in node ? node : {};
    if (lit) this.found.push({ span: node.span, lit, name: member ? member.sym : sym });
  }

  Member(/** @type {forms.MemberExpr} */ node, /** @type {Holder} */ holder, /** @type {forms.Expr} */ choice) {
    if (node.prop.Ident) this.Ident(node, holder, choice);
  }

  Paren(/** @type {forms.ParenExpr} */ { expr }, /** @type {Holder} */ holder) {
    this.value(expr, holder);
  }

  TsConstAssertion(/** @type {forms.TsConstAssertion} */ { expr }) {
    this.value(expr, FROZEN);
  }

  Cond(/** @type {forms.CondExpr} */ { cons, alt }, /** @type {Holder} */ holder) {
    for (const it of [cons, alt]) this.value(it, holder === FROZEN ? FROZEN : WIDE);
  }

  Array(/** @type {forms.ArrayLit} */ { elems }, /** @type {Holder} */ holder) {
    for (const it of elems || []) if (it && !it.spread) this.value(it.expr, holder === FROZEN ? FROZEN : WIDE);
  }

  Object(/** @type {forms.ObjectLit} */ { props }, /** @type {Holder} */ holder, /** @type {forms.Expr} */ choice, /** @type {Holder} */ held = holder === FROZEN ? FROZEN : WIDE) {
    for (const { Prop: it } of props || []) {
      if (it && it.Shorthand) this.Ident(it.Shorthand, held, { Ident: it.Shorthand });
      if (it && it.KeyValue) this.value(it.KeyValue.value, held);
    }
  }

  /** `Object.freeze(value)`, the one call that stays. */
  Call(/** @type {forms.CallExpr} */ { args = [] }) {
    const [{ expr }] = args;
    if (expr.Object) this.Object(expr.Object, WIDE, expr, CONSTANT);
    else this.value(expr, WIDE);
  }

  Fn(/** @type {forms.FnExpr} */ { function: node }) {
    this.parameters(node.params);
  }

  Arrow(/** @type {forms.ArrowExpr} */ { params, return_type, body }) {
    this.parameters(params);
    if (!return_type && body.Expr) new Literals(this.scope.within(params), this.found).value(body.Expr, WIDE);
  }
}

/** @type {Record<string, string>} */
const WORDS = { Str: 'string', Number: 'number', Num: 'number', Bool: 'boolean', BigInt: 'bigint' };

/**
 * The literals of a module that are wider in the source, as messages.
 *
 * @returns {import('../messages/types').Message[]}
 */
function literalMessages(/** @type {forms.ModuleItem[]} */ items, /** @type {Scope} */ scope, /** @type {Placed} */ placed) {
  /** @type {FoundLiteral[]} */
  const found = [];
  new Literals(scope, found).items(items);
  return found.map(({ span, lit, name }) => placed(span, {
    level: 'Warning', code: 'widened-literal',
    message: `the type here is ${textOf({ TsLitType: { span: [0, 0], lit } })} in the skeleton, and ${WORDS[variantOf(lit)[0]]} in the source`,
    hint: `write the type, with ${WORDS[variantOf(lit)[0]]} in the place of '${name}'`,
    info: [`'${name}' is a constant without a written type: the skeleton has the type of its value in place of the value`],
  }));
}

/** Gives a message its place in a file, whose lines are counted for the first message. */
function placedIn(/** @type {SourceFile} */ file, /** @type {string} */ shown) {
  /** @type {Placed} */
  const placed = (span, message) => {
    const { specifier, lines } = file;
    return { ...message, specifier, file: shown, lines, start: lines.offset((span || [1, 1])[0]), end: lines.offset((span || [1, 1])[1]) };
  };
  return placed;
}

/**
 * What is wrong with the skeletons of a folder that was analysed, as messages. `shownName(path)` is how they name a file.
 *
 * @returns {import('../messages/types').Message[]}
 */
function skeletonMessages(/** @type {SkeletonWorld} */ world, /** @type {(file: string) => string} */ shownName) {
  /** @type {ReturnType<typeof scopesOf> | null} */
  let scopes = null;
  return [...world.skeletons].flatMap(([specifier, skeleton]) => {
    const file = world.files.get(specifier);
    if (!file || /\.d\.[cm]?ts$/.test(specifier)) return [];
    const placed = placedIn(file, shownName(file.path));
    const { mayKeepValue, mayHaveMade, mayHaveDefault } = traitsOf(skeleton);
    const shadowing = mayHaveMade ? shadowedMessages(skeleton.program.body || [], placed) : [];
    if (!mayKeepValue && !mayHaveDefault) return shadowing;
    scopes = scopes || scopesOf(world);
    return [...shadowing, ...literalMessages(skeleton.program.body || [], scopes(specifier), placed)];
  });
}

module.exports = { placedIn, shadowedMessages, skeletonMessages };
