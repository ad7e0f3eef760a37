'use strict';
// Declarations, imports and exports.

const { hasModifier, modifiersOf } = require('../../compiler/modifiers.js');
const { ts } = require('../../compiler/typescript.js');
const { AMBIENT, NEWER, converterOf, form } = require('./converter.js');
const { Scope, bindBody, ANY, TYPE, VALUE, NAMESPACE } = require('./scopes.js');
const names = require('./names.js');
const types = require('./types.js');
const { expression } = require('./expressions.js');
const { statement, declarator, KINDS } = require('./statements.js');
const { functionIn, classOf, implemented, heritage } = require('./classes.js');

/** @typedef {import('./converter.js').Converter} Converter */

const { SyntaxKind: K } = ts;

/** @type {Set<ts.SyntaxKind>} */
const BEFORE = new Set([K.ExportKeyword, K.DefaultKeyword, K.Decorator]);

/** Where a declaration begins: behind `export`, `default` and decorators, but with the decorators of a class where they are all. */
function declarationStart(/** @type {Converter} */ c, /** @type {ts.Node} */ node) {
  const modifiers = modifiersOf(node);
  const own = modifiers.find((it) => !BEFORE.has(it.kind));
  if (own) return c.start(own);
  if (modifiers.length === 0 || modifiers.every((it) => ts.isDecorator(it))) return c.start(node);
  return c.after(modifiers[modifiers.length - 1].end);
}

/** The range of an export: from the word `export`. */
function exportSpan(/** @type {Converter} */ c, /** @type {ts.Node} */ node) {
  const word = modifiersOf(node).find((it) => it.kind === K.ExportKeyword);
  return c.range(c.start(word || node), node.end);
}

/** @returns {boolean} */
function isDeclare(/** @type {ts.Node} */ node) {
  return hasModifier(node, K.DeclareKeyword);
}

const MODIFIERS = new Set([
  K.ExportKeyword, K.DefaultKeyword, K.DeclareKeyword, K.AbstractKeyword, K.AsyncKeyword, K.ConstKeyword, K.Decorator,
]);

/** Refuses modifiers that the forms have no place for, and a second one of a kind. */
function checkModifiers(/** @type {Converter} */ c, /** @type {ts.Node} */ node) {
  const seen = new Set();
  for (const it of modifiersOf(node)) {
    const isTwice = !ts.isDecorator(it) && seen.has(it.kind);
    if (isTwice || !MODIFIERS.has(it.kind)) c.refuse(it, `no form for \`${c.written(it)}\` at a declaration`);
    seen.add(it.kind);
  }
}

// ---- declarations

/** @returns {forms.Decl} */
function variables(/** @type {Converter} */ c, /** @type {ts.VariableStatement} */ node) {
  const list = node.declarationList;
  const span = c.range(declarationStart(c, node), node.end);
  const kind = KINDS.get(list.flags & ts.NodeFlags.BlockScoped);
  const decls = list.declarations.map((it) => declarator(c, it));
  if (kind) return { Var: form({ span, kind, declare: isDeclare(node), decls }) };
  return { Using: form({ span, is_await: (list.flags & ts.NodeFlags.BlockScoped) === 6, decls }) };
}

/** @returns {forms.FnDecl} */
function declaredFunction(/** @type {Converter} */ c, /** @type {ts.FunctionDeclaration} */ node) {
  const span = c.range(declarationStart(c, node), node.end);
  const ident = /** @type {forms.Ident} */ (node.name && names.binding(c, node.name, VALUE));
  const made = c.within((scope) => functionIn(c, node, scope, span));
  return form({ ident, declare: isDeclare(node), function: made });
}

/** @returns {forms.ClassDecl} */
function declaredClass(/** @type {Converter} */ c, /** @type {ts.ClassDeclaration} */ node) {
  const ident = /** @type {forms.Ident} */ (node.name && names.binding(c, node.name, VALUE));
  return form({ ident, declare: isDeclare(node), class: classOf(c, node, declarationStart(c, node)) });
}

/** @returns {forms.TsInterfaceDecl} */
function interfaceDeclaration(/** @type {Converter} */ c, /** @type {ts.InterfaceDeclaration} */ node) {
  return c.within((scope) => {
    types.bindTypeParams(c, node);
    const open = c.text.lastIndexOf('{', node.members.pos);
    return form({
      span: c.range(declarationStart(c, node), node.end),
      id: names.binding(c, node.name, TYPE, scope.parent || scope),
      declare: isDeclare(node),
      type_params: types.typeParams(c, node),
      extends: heritage(node, K.ExtendsKeyword).map((it) => implemented(c, it)),
      body: form({ span: c.range(open, node.end), body: node.members.map((it) => types.member(c, it)) }),
    });
  });
}

/** @returns {forms.TsTypeAliasDecl} */
function typeAlias(/** @type {Converter} */ c, /** @type {ts.TypeAliasDeclaration} */ node) {
  return c.within((scope) => {
    types.bindTypeParams(c, node);
    return form({
      span: c.range(declarationStart(c, node), node.end),
      declare: isDeclare(node),
      id: names.binding(c, node.name, TYPE, scope.parent || scope),
      type_params: types.typeParams(c, node),
      type_ann: types.type(c, node.type),
    });
  });
}

/** @returns {forms.TsEnumMember} */
function enumMember(/** @type {Converter} */ c, /** @type {ts.EnumMember} */ node, /** @type {Scope} */ scope) {
  const { name } = node;
  let id = null;
  if (ts.isIdentifier(name)) id = { Ident: names.binding(c, name, VALUE, scope) };
  else if (ts.isStringLiteral(name)) id = { Str: names.str(c, name) };
  else if (ts.isComputedPropertyName(name) && ts.isStringLiteralLike(name.expression)) id = { Str: names.str(c, name.expression) };
  else id = { Str: { span: c.span(name), value: c.unknown(name, 'the name of an enum member') && '' } };
  return form({ span: c.span(node), id, init: node.initializer && expression(c, node.initializer) });
}

/** @returns {forms.TsEnumDecl} */
function enumDeclaration(/** @type {Converter} */ c, /** @type {ts.EnumDeclaration} */ node) {
  const id = names.binding(c, node.name, TYPE);
  return c.within((scope) => {
    for (const it of node.members) if (ts.isIdentifier(it.name)) scope.bind(it.name.text, VALUE);
    return form({
      span: c.range(declarationStart(c, node), node.end),
      declare: isDeclare(node),
      is_const: hasModifier(node, K.ConstKeyword),
      id,
      members: node.members.map((it) => enumMember(c, it, scope)),
    });
  }, sharedScope(c, node));
}

// ---- namespaces, which may be written in several blocks

/** The names that a block exports to the other blocks of its namespace. */
function exportedScope(/** @type {Converter} */ c, /** @type {ts.EnumDeclaration | ts.ModuleDeclaration} */ node, /** @type {Scope} */ scope) {
  const shown = new Scope(scope.number, null);
  const isAmbient = (node.flags & AMBIENT) !== 0 || isDeclare(node);
  if (ts.isEnumDeclaration(node)) {
    for (const it of node.members) if (ts.isIdentifier(it.name)) shown.bind(it.name.text, VALUE);
  } else if (node.body && ts.isModuleBlock(node.body)) {
    bindBody(shown, node.body.statements.filter((it) => isAmbient || hasModifier(it, K.ExportKeyword)));
  }
  return shown;
}

/**
 * Whether a statement is a block of a namespace or an enum of a name.
 *
 * @param {ts.Node} it
 * @param {ts.EnumDeclaration | ts.ModuleDeclaration} node
 * @returns {it is ts.EnumDeclaration | ts.ModuleDeclaration}
 */
function isBlockOf(it, node) {
  return it.kind === node.kind && (ts.isEnumDeclaration(it) || ts.isModuleDeclaration(it)) && ts.isIdentifier(it.name) && it.name.text === node.name.text;
}

/** The scope of a block of a namespace or an enum, joined with those of the other blocks that stand beside it. */
function sharedScope(/** @type {Converter} */ c, /** @type {ts.EnumDeclaration | ts.ModuleDeclaration} */ node) {
  const known = c.blocks.get(node);
  if (known) return known.scope;
  const blocks = c.list.flatMap((it) => (isBlockOf(it, node) ? it : []));
  if (!blocks.includes(node)) blocks.push(node);
  const made = blocks.map((block) => {
    const scope = c.newScope(c.scope);
    return { block, scope, shown: exportedScope(c, block, scope) };
  });
  for (const it of made) {
    if (made.length > 1) it.scope.joined = made.filter((other) => other !== it).map((other) => other.shown);
    c.blocks.set(it.block, it);
  }
  return made[blocks.indexOf(node)].scope;
}

/** @returns {forms.TsNamespaceBody} */
function moduleBlock(/** @type {Converter} */ c, /** @type {ts.ModuleBlock} */ node) {
  bindBody(c.scope, node.statements);
  return { TsModuleBlock: form({ span: c.span(node), body: items(c, node.statements) }) };
}

/**
 * The inner part of `namespace A.B {}`.
 *
 * @returns {forms.TsNamespaceBody}
 */
function innerNamespace(/** @type {Converter} */ c, /** @type {ts.ModuleDeclaration} */ node) {
  const id = names.binding(c, /** @type {ts.Identifier} */ (node.name), NAMESPACE);
  const [body] = c.each([node], (it) => /** @type {forms.TsNamespaceBody} */ (namespaceBody(c, it)));
  return { TsNamespaceDecl: form({ span: c.span(node), id, body }) };
}

/** @returns {forms.TsNamespaceBody | null} */
function namespaceBody(/** @type {Converter} */ c, /** @type {ts.ModuleDeclaration} */ node) {
  const { body } = node;
  if (!body) return null;
  return c.within((scope) => {
    if (!ts.isModuleDeclaration(body)) return moduleBlock(c, /** @type {ts.ModuleBlock} */ (body));
    scope.bind(body.name.text, VALUE | NAMESPACE);
    return innerNamespace(c, body);
  }, ts.isIdentifier(node.name) ? sharedScope(c, node) : undefined);
}

/** @returns {forms.TsModuleDecl} */
function namespaceDeclaration(/** @type {Converter} */ c, /** @type {ts.ModuleDeclaration} */ node) {
  const global = (node.flags & ts.NodeFlags.GlobalAugmentation) !== 0;
  return form({
    span: c.range(declarationStart(c, node), node.end),
    declare: isDeclare(node),
    global,
    namespace: (node.flags & ts.NodeFlags.Namespace) !== 0,
    id: ts.isStringLiteral(node.name) ? { Str: names.str(c, node.name) } : { Ident: global ? names.plain(c, node.name) : names.binding(c, node.name, NAMESPACE) },
    body: namespaceBody(c, node),
  });
}

/** @type {import('./nodes').Converters<forms.Decl>} */
const DECLARATIONS = {
  [K.VariableStatement]: variables,
  [K.FunctionDeclaration]: (c, node) => ({ Fn: declaredFunction(c, node) }),
  [K.ClassDeclaration]: (c, node) => ({ Class: declaredClass(c, node) }),
  [K.InterfaceDeclaration]: (c, node) => ({ TsInterface: interfaceDeclaration(c, node) }),
  [K.TypeAliasDeclaration]: (c, node) => ({ TsTypeAlias: typeAlias(c, node) }),
  [K.EnumDeclaration]: (c, node) => ({ TsEnum: enumDeclaration(c, node) }),
  [K.ModuleDeclaration]: (c, node) => ({ TsModule: namespaceDeclaration(c, node) }),
};

/**
 * A declaration, or null where the node is none.
 *
 * @returns {forms.Decl | null}
 */
function declaration(/** @type {Converter} */ c, /** @type {ts.Statement} */ node) {
  const convert = converterOf(DECLARATIONS, node);
  if (!convert) return null;
  checkModifiers(c, node);
  return convert(c, node);
}

// ---- imports and exports

/** The last comment before a statement, which may name the types of what it imports. */
function commentBefore(/** @type {Converter} */ c, /** @type {ts.Node} */ node) {
  const ranges = ts.getLeadingCommentRanges(c.text, node.pos) || [];
  const last = ranges[ranges.length - 1];
  return last ? c.text.slice(last.pos, last.end) : null;
}

/** @returns {forms.ObjectLit | null} */
/**
 * The attributes of an import, which compilers before 5.3 call assertions.
 *
 * @param {{ attributes?: ts.AssertClause, assertClause?: ts.AssertClause }} node
 */
function attributesOf({ attributes: own, assertClause }) {
  return own || assertClause;
}

function attributes(/** @type {Converter} */ c, /** @type {ts.ImportDeclaration | ts.ExportDeclaration} */ node) {
  const clause = attributesOf(node);
  if (!clause) return null;
  const props = clause.elements.map((it) => {
    const key = ts.isStringLiteral(it.name) ? { Str: names.str(c, it.name) } : { Ident: names.identName(c, it.name) };
    return { Prop: { KeyValue: { key, value: expression(c, it.value) } } };
  });
  const open = c.text.indexOf('{', c.start(clause));
  return form({ span: c.range(open, clause.end), props });
}

/** @returns {forms.ImportSpecifier} */
function importSpecifier(/** @type {Converter} */ c, /** @type {ts.ImportSpecifier} */ node) {
  const local = names.binding(c, node.name, ANY);
  const imported = node.propertyName && names.moduleExportName(c, node.propertyName);
  return { Named: form({ span: c.span(node), local, imported, is_type_only: node.isTypeOnly }) };
}

/** @returns {forms.ImportSpecifier[]} */
function importSpecifiers(/** @type {Converter} */ c, /** @type {ts.ImportClause | undefined} */ clause) {
  if (!clause) return [];
  const made = [];
  if (clause.name) made.push({ Default: { span: c.span(clause.name), local: names.binding(c, clause.name, ANY) } });
  const bindings = clause.namedBindings;
  if (bindings && ts.isNamespaceImport(bindings)) {
    made.push({ Namespace: { span: c.span(bindings), local: names.binding(c, bindings.name, ANY) } });
  } else if (bindings) {
    for (const it of bindings.elements) made.push(importSpecifier(c, it));
  }
  return made;
}

/**
 * The text that names a module, which is kept for whoever follows it.
 *
 * @returns {forms.Str}
 */
function source(/** @type {Converter} */ c, /** @type {ts.Expression} */ node, /** @type {ts.Node} */ around) {
  if (ts.isStringLiteral(node)) {
    c.sources.push({ text: node.text, offset: c.start(node), comment: commentBefore(c, around) });
    return names.str(c, node);
  }
  c.refuse(node, 'a source that is no text');
  return { span: c.span(node), value: '' };
}

/**
 * When an import is evaluated: `import defer`, which compilers read from 5.9 on, or at once.
 *
 * @returns {string}
 */
function phaseOf(/** @type {{ phaseModifier?: ts.SyntaxKind } | undefined} */ clause) {
  return NEWER.DeferKeyword !== undefined && clause && clause.phaseModifier === NEWER.DeferKeyword ? 'defer' : 'evaluation';
}

/** @returns {forms.ModuleDecl} */
function importDeclaration(/** @type {Converter} */ c, /** @type {ts.ImportDeclaration} */ node) {
  const clause = node.importClause;
  return {
    Import: form({
      span: c.span(node),
      specifiers: importSpecifiers(c, clause),
      src: source(c, node.moduleSpecifier, node),
      type_only: Boolean(clause && clause.isTypeOnly),
      with: attributes(c, node),
      phase: phaseOf(/** @type {{ phaseModifier?: ts.SyntaxKind } | undefined} */ (/** @type {unknown} */ (clause))),
    }),
  };
}

/** @returns {forms.ExportSpecifier} */
function exportSpecifier(/** @type {Converter} */ c, /** @type {ts.ExportSpecifier} */ node, /** @type {boolean} */ hasSource) {
  const ident = hasSource ? names.plain : (/** @type {Converter} */ c_, /** @type {ts.Identifier} */ it) => names.reference(c_, it, ANY);
  const orig = names.moduleExportName(c, node.propertyName || node.name, ident);
  const exported = node.propertyName && names.moduleExportName(c, node.name);
  return { Named: form({ span: c.span(node), orig, exported, is_type_only: node.isTypeOnly }) };
}

/** @returns {forms.ModuleDecl} */
function exportDeclaration(/** @type {Converter} */ c, /** @type {ts.ExportDeclaration} */ node) {
  const clause = node.exportClause;
  const shared = {
    span: c.span(node),
    src: node.moduleSpecifier ? source(c, node.moduleSpecifier, node) : null,
    type_only: node.isTypeOnly,
    with: attributes(c, node),
  };
  if (!clause && shared.src) return { ExportAll: form({ ...shared, src: shared.src }) };
  if (!clause) return c.unknown(node, 'an export');
  if (ts.isNamespaceExport(clause)) {
    const specifier = { Namespace: { span: c.span(clause), name: names.moduleExportName(c, clause.name) } };
    return { ExportNamed: form({ ...shared, specifiers: [specifier] }) };
  }
  return { ExportNamed: form({ ...shared, specifiers: clause.elements.map((it) => exportSpecifier(c, it, Boolean(shared.src))) }) };
}

/** @returns {forms.TsModuleRef} */
function moduleReference(/** @type {Converter} */ c, /** @type {ts.ModuleReference} */ node) {
  if (!ts.isExternalModuleReference(node)) return { TsEntityName: types.entity(c, node, ANY) };
  return { TsExternalModuleRef: { span: c.span(node), expr: source(c, node.expression, node) } };
}

/** @returns {forms.ModuleDecl} */
function importEquals(/** @type {Converter} */ c, /** @type {ts.ImportEqualsDeclaration} */ node) {
  return {
    TsImportEquals: form({
      span: c.span(node),
      is_export: hasModifier(node, K.ExportKeyword),
      is_type_only: node.isTypeOnly,
      id: names.binding(c, node.name, ANY),
      module_ref: moduleReference(c, node.moduleReference),
    }),
  };
}

/** @returns {forms.ModuleDecl} */
function exportAssignment(/** @type {Converter} */ c, /** @type {ts.ExportAssignment} */ node) {
  if (node.isExportEquals) return { TsExportAssignment: { span: c.span(node), expr: exported(c, node.expression) } };
  return { ExportDefaultExpr: { span: c.span(node), expr: exported(c, node.expression) } };
}

/**
 * What an export names: a name alone may be one of a type or a namespace.
 *
 * @returns {forms.Expr}
 */
function exported(/** @type {Converter} */ c, /** @type {ts.Expression} */ node) {
  return ts.isIdentifier(node) ? { Ident: names.reference(c, node, ANY) } : expression(c, node);
}

/** @returns {forms.ModuleDecl} */
function defaultDeclaration(/** @type {Converter} */ c, /** @type {ts.Statement} */ node) {
  checkModifiers(c, node);
  const span = exportSpan(c, node);
  if (ts.isFunctionDeclaration(node)) return { ExportDefaultDecl: { span, decl: { Fn: declaredFunction(c, node) } } };
  if (ts.isClassDeclaration(node)) return { ExportDefaultDecl: { span, decl: { Class: declaredClass(c, node) } } };
  if (ts.isInterfaceDeclaration(node)) return { ExportDefaultDecl: { span, decl: { TsInterfaceDecl: interfaceDeclaration(c, node) } } };
  return c.unknown(node, 'a default export');
}

/** @type {import('./nodes').Converters<forms.ModuleDecl>} */
const MODULE_DECLARATIONS = {
  [K.ImportDeclaration]: importDeclaration,
  [K.ExportDeclaration]: exportDeclaration,
  [K.ImportEqualsDeclaration]: importEquals,
  [K.ExportAssignment]: exportAssignment,
  [K.NamespaceExportDeclaration]: (c, node) => ({
    TsNamespaceExport: { span: c.span(node), id: names.plain(c, node.name) },
  }),
};

/** @returns {boolean} */
function isExported(/** @type {ts.Node} */ node) {
  return hasModifier(node, K.ExportKeyword);
}

/**
 * An item of a module or a namespace.
 *
 * @returns {forms.ModuleItem}
 */
function item(/** @type {Converter} */ c, /** @type {ts.Statement} */ node) {
  const convert = converterOf(MODULE_DECLARATIONS, node);
  if (convert) return { ModuleDecl: convert(c, node) };
  if (!isExported(node)) return { Stmt: statement(c, node) };
  if (hasModifier(node, K.DefaultKeyword)) return { ModuleDecl: defaultDeclaration(c, node) };
  const decl = declaration(c, node);
  if (!decl) {
    c.refuse(node, `no form for the export of ${K[node.kind]}`);
    return c.invalid(node);
  }
  return { ModuleDecl: { ExportDecl: { span: exportSpan(c, node), decl } } };
}

/** @returns {forms.ModuleItem[]} */
function items(/** @type {Converter} */ c, /** @type {readonly ts.Statement[]} */ list) {
  return c.each(list, (it) => item(c, it));
}

module.exports = { declaration, items };
