'use strict';
// Where two requests of `fast-check build` differ that two readers make of one folder: member by member, but for what no rule can tell apart. Scopes and symbols may have other numbers, and maps and sets
// another order.

const isAt = (span, start, end) => Array.isArray(span) && span[0] === start && span[1] === end;

/** A value without the members that have their defaults, and without what no rule asks for: scopes of forms, places of comments. Scopes of names are numbered in the order of the members, but for 1 and 2. */
function plain(value, numbers = new Map([[1, 1], [2, 2]])) {
  if (Array.isArray(value)) return value.map((it) => plain(it, numbers));
  if (value === null || typeof value !== 'object') return value;
  const made = {};
  for (const name of Object.keys(value).sort()) {
    const each = value[name];
    if (each === null || each === undefined || each === false || each === 0 || (Array.isArray(each) && each.length === 0)) continue;
    if (name === 'span' && (isAt(each, 0, 0) || value.kind === 'Line' || value.kind === 'Block')) continue;
    if (name !== 'ctxt') made[name] = plain(each, numbers);
    else if (typeof value.sym === 'string') made[name] = numbers.get(each) || numbers.set(each, numbers.size + 1).get(each);
  }
  return made;
}

/** The first place where two values differ, as the names that lead to it, or null. */
function difference(mine, wanted, at = '') {
  if (mine === wanted) return null;
  if (!isObject(mine) || !isObject(wanted) || Array.isArray(mine) !== Array.isArray(wanted)) return { at, mine, wanted };
  for (const name of new Set([...Object.keys(wanted), ...Object.keys(mine)])) {
    const found = difference(mine[name], wanted[name], `${at}.${name}`);
    if (found) return found;
  }
  return null;
}

/** Pairs as an object, in the order of their keys. */
const mapOf = (pairs) => Object.fromEntries(pairs.map(([key, value]) => [typeof key === 'string' ? key : JSON.stringify(key), value]).sort(([a], [b]) => compareTexts(a, b)));
const compareTexts = (a, b) => (a < b ? -1 : a > b ? 1 : 0);

const isObject = (it) => it !== null && typeof it === 'object';
const isNull = (it) => isObject(it) && isObject(it.Lit) && 'Null' in it.Lit;
const isTyped = (pattern) => isObject(pattern) && Object.values(pattern).some((it) => isObject(it) && it.type_ann);

/** Whether a member is a value behind a written type, which no rule looks at. */
function isHidden(node, name) {
  if (name === 'init') return isTyped(node.name);
  if (name === 'value') return Boolean(node.type_ann);
  if (name === 'right') return isTyped(node.left);
  return name === 'body' && Boolean(node.return_type);
}

/**
 * A tree with what another one has where no rule looks: values behind written types or handed to `super`, statements that declare nothing and assign to no name of the tables, the place of a body,
 * and that of a returned value that names no type.
 */
function seen(mine, wanted, name = '', around = {}) {
  if (!isObject(mine) || !isObject(wanted) || Array.isArray(mine) !== Array.isArray(wanted)) return mine;
  if (Array.isArray(mine)) return mine.map((it, at) => seen(it, wanted[at], around.callee && around.callee.Super ? name : '', {}));
  if (isNull(name === 'body' ? wanted.Expr : wanted) && isHidden(around, name)) return wanted;
  if (wanted.Empty && !mine.Decl && !mine.ModuleDecl) return wanted;
  if (name === 'args' && isNull(wanted.expr) && mine.expr) return { ...mine, expr: wanted.expr };
  if (mine.Return && wanted.Return && mine.Return.arg?.This && wanted.Return.arg?.This) return wanted;
  const made = Object.fromEntries(Object.entries(mine).map(([key, it]) => [key, seen(it, wanted[key], key, mine)]));
  return mine.stmts && !wanted.span ? { ...made, span: undefined } : made;
}

/** A tree in which a value that asserts its type is its type: no rule looks at more of it. */
function asserted(tree, name = '') {
  if (!isObject(tree)) return tree;
  if (Array.isArray(tree)) return tree.map((it) => asserted(it));
  const isAssertion = name === 'TsAs' || name === 'TsTypeAssertion';
  return Object.fromEntries(Object.entries(tree).map(([key, it]) => [key, isAssertion && key === 'expr' ? 'a value' : asserted(it, key)]));
}

/** Whether skeletons keep a comment: those of documentation, and those that speak to the compiler. */
const isKept = ({ kind, text }) => (kind === 'Block' ? text.startsWith('*') : /^[\s\x85]*@ts-/.test(text));

/** Comments by their positions, but for those that no skeleton keeps. */
const keptComments = (lists = []) => plain(mapOf(lists.map(([position, all]) => [position, all.filter(isKept)]).filter(([, all]) => all.length)));

const isMember = ({ decls = [] }) => decls.some(({ kind }) => kind.Definition && kind.Definition.is_member);

/** The tables of a module, with symbols by their places in an order, and scopes as the tree of the module has them. */
class Tables {
  constructor({ symbols = [], swc_ids: ids = [], ...others }, scopes, isExportedAgain) {
    Object.assign(this, { scopes, ids, others, isExportedAgain });
    const names = new Map(ids.map(([[name], id]) => [id, name]));
    const keys = new Map(symbols.map(({ id, decls = [], maybe_name: name }) => [id, JSON.stringify([decls.map(({ range, kind }) => [range, Object.keys(kind)]), names.get(id) || name])]));
    this.symbols = [...symbols].sort((a, b) => compareTexts(keys.get(a.id), keys.get(b.id)));
    this.places = new Map(this.symbols.map(({ id }, at) => [id, `symbol ${at}`]));
  }

  id([name, scope]) {
    return [name, this.scopes.get(scope) || this.scopes.set(scope, this.scopes.size + 1).get(scope)];
  }

  /** What is referred to, with scopes that both share. */
  part(choice) {
    const [[kind, content]] = Object.entries(choice);
    if (kind === 'Id' || kind === 'Target') return { [kind]: this.id(content) };
    return kind.startsWith('Qualified') ? { [kind]: [this.id(content[0]), content[1]] } : choice;
  }

  definition({ is_function: isFunction, deps = [], ...flags }, { exports = [], is_private_member: isPrivate }) {
    // A function is asked for what is assigned to it, and a private member for nothing. What is referred to is a set.
    const all = isPrivate ? [] : deps.map(([dep, namespace]) => [this.part(dep), namespace]);
    return { ...flags, is_function: Boolean(isFunction) && exports.length > 0, deps: all.sort((a, b) => compareTexts(JSON.stringify(a), JSON.stringify(b))) };
  }

  decl({ kind, has_overloads: hasOverloads = false, has_body: hasBody = false, ...others }, symbol) {
    const { Definition: node } = kind;
    // Both together say what the implementation of overloads is, and neither is asked for alone.
    return { ...others, isImplementation: hasOverloads && hasBody, kind: node ? { Definition: this.definition(node, symbol) } : this.part(kind) };
  }

  symbol(symbol, other) {
    const { id, parent_id: parent, maybe_name: name, qualified_name: qualified, exports = [], members = [], decls = [], ...others } = symbol;
    return {
      ...others, id: this.places.get(id),
      // What a symbol stands in, and by which name, is asked of members alone, and its whole name where a message has it.
      ...(isMember(symbol) ? { parent: this.places.get(parent), name } : {}), ...(other && other.qualified_name === undefined ? {} : { qualified }),
      exports: exports.map(([each, it]) => [each, this.places.get(it)]), members: members.map((it) => this.places.get(it)),
      decls: decls.map((it) => this.decl(it, symbol)),
    };
  }

  /** These tables beside others. */
  plain({ symbols: others }) {
    const { module_symbol: module, re_export_all_nodes: all = [], resolved_exports: resolved = [] } = this.others;
    return {
      module_symbol: this.places.get(module), symbols: this.symbols.map((it, at) => plain(this.symbol(it, others[at]))),
      swc_ids: mapOf(this.ids.map(([id, symbol]) => [this.id(id), this.places.get(symbol)])), re_export_all_nodes: all,
      // Asked of a module of which another one exports all again.
      resolved_exports: this.isExportedAgain ? mapOf(resolved) : {},
    };
  }
}

/** Two modules of requests, each as it is compared with the other. */
function plainModules(pair, isExportedAgain) {
  const parts = pair.map((module) => {
    const [[kind, { source, ...others }]] = Object.entries(module);
    return { kind, source: source || {}, others };
  });
  const trees = parts.map(({ source }) => source.program);
  const made = parts.map(({ source: { program, comments = {}, ...source }, kind, others: { specifier, ...tables } }, at) => {
    const scopes = new Map([[1, 1], [2, 2]]);
    const tree = plain(asserted(at ? program : seen(program, trees[1])), scopes);
    const kept = { leading: keptComments(comments.leading), trailing: keptComments(comments.trailing) };
    return { kind, specifier, source, tree, comments: kept, tables: new Tables(tables, scopes, isExportedAgain) };
  });
  return made.map((it, at) => ({ ...it, tables: it.tables.plain(made[1 - at].tables) }));
}

/** What a request has beside its modules. */
function othersOf({ graph, aliases = [], workspace_members: members = [], provider, pending = [], first = false }) {
  const { modules = [], resolutions = [], packages = [] } = graph;
  return {
    graph: { modules: mapOf(modules.map(([url, it]) => [url, plain(it)])), resolutions: mapOf(resolutions.map(([from, text, to]) => [[from, text], to])), packages },
    // Entry points are a set.
    members: members.map((it) => ({ ...it, exports: mapOf(it.exports || []) })), pending: [...pending].sort(), provider: plain(provider), aliases: mapOf(aliases), first,
  };
}

/** The modules of a request of which another one exports all again. */
function exportedAgain({ graph, modules }) {
  const targets = new Map(graph.resolutions.map(([from, text, to]) => [JSON.stringify([from, text]), to]));
  return new Set(modules.flatMap(([from, { Esm: it }]) => ((it && it.re_export_all_nodes) || []).map(([, text]) => targets.get(JSON.stringify([from, text])))));
}

/** The parts of two requests by their names, each as it is compared: the modules by their URLs, and what else they have. */
function partsOf(mine, wanted) {
  const again = exportedAgain(wanted);
  // A module of JSON has no answer, and no message is about one: what leads to it ends there.
  const [own, other] = [mine, wanted].map(({ modules }) => new Map(modules.filter(([, { Json: it }]) => !it)));
  const parts = [othersOf(mine), othersOf(wanted)];
  for (const name of new Set([...own.keys(), ...other.keys()])) {
    const pair = [own.get(name), other.get(name)];
    const made = pair.every(Boolean) ? plainModules(pair, again.has(name)) : pair;
    for (const at of [0, 1]) parts[at][name] = made[at];
  }
  return parts;
}

/** How many modules of two requests are equal, and how many differ, with the first place of each and of what else differs. */
function compareInputs(mine, wanted) {
  const [own, other] = partsOf(mine, wanted);
  const found = Object.keys({ ...own, ...other }).map((name) => ({ name, isModule: name.includes(':'), found: difference(own[name], other[name]) }));
  const count = (isEqual) => found.filter((it) => it.isModule && !it.found === isEqual).length;
  return { equal: count(true), differ: count(false), places: found.flatMap(({ name, found: it }) => (it ? { name, ...it } : [])) };
}

module.exports = { compareInputs, difference, partsOf, plain };
