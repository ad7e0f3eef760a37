'use strict';
// Whether users can go on with another version of a package: TypeScript's compiler is asked of each declaration that differs. It makes declaration files of the
// sources of both versions. The new declaration is put beside the old one, into the old module, so that both mean the same by each other name, and probes take the
// one for the other.
const path = require('path');
const { STRICT, comparable } = require('./comparable.js');
const { Externals, importsOf, mentionedIn } = require('./externals.js');
const { declarationName, emitted, programOf, resolverOf } = require('../verify/surface.js');
const { Narrowing, abstraction } = require('./narrowing.js');
const { byRules } = require('./rules.js');
const { hasModifier } = require('../compiler/modifiers.js');
const { whole: ts } = require('../compiler/typescript.js');

/** @typedef {import('./types').ComparedNames} ComparedNames */
/** @typedef {import('../program/types').World} World */
/** @typedef {import('../program/types').SourceFile} SourceFile */

const { SymbolFlags: F, SyntaxKind: K } = ts;
// What stands behind the name of a new declaration beside the old one.
const NEW = '$new';
const HELP = `
export type IsSame<A, B> = (<G>() => G extends A ? 1 : 2) extends (<G>() => G extends B ? 1 : 2) ? true : false;
export type IsTrue<T extends true> = T;
export type IsUsableAs<A extends B, B> = A;
`;
const HELPERS = '/help.d.ts';
/** @type {[word: string, flag: ts.SymbolFlags][]} */
const MEANINGS = [['value', F.Value], ['type', F.Type], ['namespace', F.Namespace]];

const parse = (/** @type {string} */ name, /** @type {string} */ text) => ts.createSourceFile(name, text, ts.ScriptTarget.ESNext, true);
const isDefault = (/** @type {ts.Node} */ node) => hasModifier(node, K.DefaultKeyword);

/** @typedef {Exclude<ts.DeclarationStatement, ts.NamespaceExportDeclaration> | ts.VariableDeclaration} Named */

/** The declaration files of a version below a root of their own, in the form that is compared. */
class Version {
  constructor(/** @type {World} */ world, /** @type {string} */ root) {
    this.world = world;
    this.root = root;
    const isTypeScript = (/** @type {SourceFile} */ { path: file }) => !/\.[cm]?jsx?$/.test(file);
    const sources = new Map([...[...world.files.values()].filter(isTypeScript), ...world.info.jsonModules].map((it) => [it.path, it.text]));
    const answered = new Set([...world.skeletons.keys()].flatMap((it) => world.files.get(it) || []).map((it) => it.path));
    const made = emitted(programOf(sources, resolverOf(world, sources)), sources, (name) => answered.has(name));
    for (const [name, text] of sources) if (name.endsWith('.json')) made.set(name, text);
    this.resolveMade = resolverOf(world, made);
    this.paths = new Map([...made.keys()].map((name) => [this.at(name), name]));
    this.texts = new Map([...made].map(([name, text]) => [this.at(name), name.endsWith('.json') ? text : comparable(name, text)]));
    // As they were made, with private and protected members.
    this.whole = new Map([...made].map(([name, text]) => [this.at(name), text]));
    /** @type {Map<string, Declarations>} */
    this.parsed = new Map();
    /** @type {Map<string, Declarations>} */
    this.parsedWhole = new Map();
  }

  at(/** @type {string} */ file) {
    return path.join(this.root, path.relative(this.world.dir, file));
  }

  resolve(/** @type {string} */ from, /** @type {string} */ text) {
    const own = this.paths.get(from);
    const found = own !== undefined && this.resolveMade(own, text);
    return found ? this.at(found) : undefined;
  }

  /**
   * The declaration file of a module, parsed; undefined where there is none.
   *
   * @returns {Declarations | undefined}
   */
  module(/** @type {string} */ specifier) {
    return this.parsedOf(specifier, this.texts, this.parsed);
  }

  /** The same as it was made, with private and protected members. */
  wholeModule(/** @type {string} */ specifier) {
    return this.parsedOf(specifier, this.whole, this.parsedWhole);
  }

  parsedOf(/** @type {string} */ specifier, /** @type {Map<string, string>} */ texts, /** @type {Map<string, Declarations>} */ parsed) {
    const file = this.world.files.get(specifier);
    const name = file ? this.at(declarationName(file.path)) : '';
    const text = texts.get(name);
    if (text === undefined) return undefined;
    const known = parsed.get(name) || new Declarations(parse(name, text));
    parsed.set(name, known);
    return known;
  }
}

/** @type {(it: ts.Statement) => it is Named & ts.Statement} */
const isNamed = (it) => Boolean(/** @type {{ name?: ts.Node }} */ (/** @type {unknown} */ (it)).name) && !ts.isExportDeclaration(it);

/** A declaration file by the names at its top. */
class Declarations {
  constructor(/** @type {ts.SourceFile} */ file) {
    this.file = file;
    /** @type {Map<string, Named[]>} */
    this.declared = new Map();
    /** @type {ts.Statement | undefined} */
    this.default = undefined;
    const add = (/** @type {string} */ name, /** @type {Named} */ node) => this.declared.set(name, [...(this.declared.get(name) || []), node]);
    for (const it of file.statements) {
      if (ts.isVariableStatement(it)) for (const each of it.declarationList.declarations) add(each.name.getText(), each);
      else if (isNamed(it)) add(/** @type {ts.Identifier} */ (it.name).text, it);
      if (isDefault(it) || (ts.isExportAssignment(it) && !it.isExportEquals)) this.default = it;
    }
    this.imported = new Map(importsOf(file).flatMap((it) => (it[0] === null ? [] : [[it[0], it]])));
  }

  /**
   * The name under which something is declared that a skeleton calls `name`.
   *
   * @returns {string | null}
   */
  local(/** @type {string} */ name) {
    if (name !== 'default' || this.declared.has(name)) return name;
    const found = this.default;
    if (!found) return name;
    if (ts.isExportAssignment(found)) return found.expression.getText();
    return isNamed(found) ? /** @type {ts.Identifier} */ (found.name).text : null;
  }
}

/** @type {Map<ts.SyntaxKind, string>} */
const SPELT = new Map([
  [K.StringLiteral, 'string'], [K.NoSubstitutionTemplateLiteral, 'string'], [K.NumericLiteral, 'number'], [K.BigIntLiteral, 'bigint'], [K.TrueKeyword, 'boolean'], [K.FalseKeyword, 'boolean'],
]);

/** The widened type of a constant whose type is that of a literal, or of a member of an enum; undefined of any other. */
function widenedType(/** @type {ts.Symbol} */ { declarations = [] }) {
  const [declaration] = declarations;
  if (!declaration || !ts.isVariableDeclaration(declaration) || !declaration.initializer) return undefined;
  const { initializer } = declaration;
  const value = ts.isPrefixUnaryExpression(initializer) ? initializer.operand : initializer;
  return SPELT.get(value.kind) || (ts.isPropertyAccessExpression(value) || ts.isElementAccessExpression(value) ? value.expression.getText() : undefined);
}

/** The text of a declaration under another name, without what exports it. */
function renamed(/** @type {Named} */ node, /** @type {string} */ name) {
  const text = node.getText();
  const own = /** @type {ts.Node} */ (node.name);
  const from = own.getStart() - node.getStart();
  const made = `${text.slice(0, from)}${name}${text.slice(own.end - node.getStart())}`;
  if (ts.isVariableDeclaration(node)) return `export declare ${node.parent.flags & ts.NodeFlags.Const ? 'const' : 'let'} ${made};`;
  const plain = made.replace(/^(?:(?:export|default|declare)\s+)+/, '');
  return `export ${ts.isInterfaceDeclaration(node) || ts.isTypeAliasDeclaration(node) ? '' : 'declare '}${plain}`;
}

/** The type parameters of a declaration. */
const parametersOf = (/** @type {ts.Node} */ node) => [...(/** @type {{ typeParameters?: ts.NodeArray<ts.TypeParameterDeclaration> }} */ (node).typeParameters || [])];

/** The type parameters of some declarations of one name, as they are written. */
const writtenParameters = (/** @type {Named[]} */ nodes) => nodes.flatMap((it) => parametersOf(it).map((each) => each.getText())).join();

/** Why one type is no other, as the compiler says it: its last two reasons, which are the innermost ones. */
function reasonText(/** @type {string | ts.DiagnosticMessageChain} */ message) {
  const lines = ts.flattenDiagnosticMessageText(message, '\n').split('\n').map((it) => it.trim().replace(/import\("[^"]*"\)\.|\$new\b|\$strict\b/g, '').replace(/[.:]$/, ''));
  const telling = lines.filter((it) => !/^Type '(.*)' (?:is not assignable to type|does not satisfy the constraint) '\1'/.test(it));
  return (telling.length ? telling : lines).slice(-2).map((it) => it[0].toLowerCase() + it.slice(1)).join(': ');
}

const isPlain = (/** @type {string} */ name) => /^[\p{ID_Start}$_][\p{ID_Continue}$]*$/u.test(name);

/** The type parameters that a symbol is declared with. */
function typeParametersOf(/** @type {ts.Symbol} */ symbol) {
  return (symbol.declarations || []).map(parametersOf).find((it) => it.length) || [];
}

/** A declaration of both versions: what is asked of it, and the advice that follows from the answers. */
class Pair {
  constructor(/** @type {string} */ key) {
    this.key = key;
    // Where both stand, once they are found: the file and the name of the old one, and the nodes of each.
    this.file = '';
    this.name = '';
    /** @type {Named[][]} */
    this.nodes = [];
    /** @type {string[]} */
    this.breaks = [];
    // What breaks users though the compiler takes one declaration for the other.
    /** @type {string[]} */
    this.ruled = [];
    this.isAddition = false;
    // Questions of which a no is a break, and those of which it is an addition.
    /** @type {number[]} */
    this.needed = [];
    /** @type {number[]} */
    this.sameness = [];
  }

  /**
   * The part of a version number that the change raises, and why. `answers` say what the compiler has against each question.
   *
   * @returns {import('./types').Advised}
   */
  advice(/** @type {(string | null)[]} */ answers) {
    const [reason] = [...this.breaks, ...this.needed.flatMap((it) => answers[it] || []), ...this.ruled];
    if (reason) return { advice: 'major', reason };
    return { advice: this.isAddition || this.sameness.some((it) => answers[it]) ? 'minor' : 'patch', reason: null };
  }
}

/** Both versions of a package in one program of the compiler. */
class Comparison {
  constructor(/** @type {World} */ before, /** @type {World} */ after) {
    this.versions = [new Version(before, '/old'), new Version(after, '/new')];
    /** @type {Map<string, string>} */
    this.texts = new Map(this.versions.flatMap(({ texts }) => [...texts]));
    this.texts.set(HELPERS, HELP);
    this.externals = new Externals(this.texts, (from, text) => !this.inside(from, text));
    /** @type {Pair[]} */
    this.pairs = [];
    /** @type {Map<string, string[]>} */
    this.added = new Map();
    /** @type {{ file: string, text: string }[]} */
    this.asked = [];
    /** @type {ts.TypeChecker | null} */
    this.known = null;
  }

  inside(/** @type {string} */ from, /** @type {string} */ text) {
    const version = this.versions.find(({ root }) => from.startsWith(`${root}/`));
    return version && version.resolve(from, text);
  }

  resolve(/** @type {string} */ from, /** @type {string} */ text) {
    if (this.texts.has(text)) return text;
    return this.inside(from, text) || this.externals.fileOf(text);
  }

  program() {
    const texts = new Map(this.texts);
    for (const [name, text] of this.externals.texts()) texts.set(name, text);
    for (const [name, parts] of this.added) texts.set(name, [texts.get(name), ...parts].join('\n'));
    return programOf(texts, (from, text) => this.resolve(from, text));
  }

  add(/** @type {string} */ file, /** @type {string} */ text) {
    const before = this.added.get(file) || [];
    if (!before.includes(text)) this.added.set(file, [...before, text]);
  }

  /** Puts a new declaration beside the old one. */
  take(/** @type {ComparedNames} */ { key, old, now }) {
    const [before, after] = [this.versions[0].module(old.specifier), this.versions[1].module(now.specifier)];
    const pair = new Pair(key);
    this.pairs.push(pair);
    const names = [before && before.local(old.name), after && after.local(now.name)].map((it) => it || '');
    const nodes = [before, after].map((it, at) => (it && it.declared.get(names[at])) || []);
    if (!before || !after || !nodes.every((it) => it.length)) {
      pair.breaks.push('it is another declaration');
      return;
    }
    Object.assign(pair, { file: before.file.fileName, name: names[0], nodes });
    this.rule(pair, old.specifier, now.specifier, names);
    const strict = after.declared.get(names[1] + STRICT) || [];
    // In a declaration with other type parameters its own name has these too.
    const isOther = writtenParameters(nodes[0]) !== writtenParameters(nodes[1]);
    const own = (/** @type {string} */ text) => (isOther ? text.replace(new RegExp(`(?<![.$\\w])${names[1].replace(/\$/g, '\\$&')}(?![$\\w])`, 'g'), () => names[0] + NEW) : text);
    const texts = [...nodes[1].map((it) => own(renamed(it, names[0] + NEW))), ...strict.map((it) => own(renamed(it, names[0] + STRICT + NEW)))];
    const foreign = this.bind(pair, before, after, [...nodes[1], ...strict]);
    if (foreign) pair.breaks.push(`${foreign} is another declaration`);
    for (const text of texts) this.add(pair.file, text);
  }

  /** Looks for what the compiler does not see. */
  rule(/** @type {Pair} */ pair, /** @type {string} */ old, /** @type {string} */ now, /** @type {string[]} */ names) {
    const [before, after] = [this.versions[0].wholeModule(old), this.versions[1].wholeModule(now)].map((it, at) => (it && it.declared.get(names[at])) || []);
    if (!before.length || !after.length) return;
    const { breaks, isAddition } = byRules(before, after, names[0]);
    pair.ruled.push(...breaks);
    pair.isAddition = pair.isAddition || isAddition;
  }

  /**
   * Imports what a new declaration mentions and the old module lacks. Answers a name that means something else in both.
   *
   * @returns {string | null}
   */
  bind(/** @type {Pair} */ pair, /** @type {Declarations} */ before, /** @type {Declarations} */ after, /** @type {ts.Node[]} */ nodes) {
    const roots = new Set(nodes.flatMap((it) => mentionedIn(it)));
    const has = (/** @type {Declarations} */ module, /** @type {string} */ name) => module.declared.has(name) || module.imported.has(name);
    for (const name of roots) {
      if (has(before, name) && has(after, name)) {
        if (this.meaning(before, name) !== this.meaning(after, name)) return name;
      } else if (!has(before, name) && has(after, name)) this.add(pair.file, this.importOf(after, name));
    }
    return null;
  }

  /** What a name stands for, as far as both versions are told apart by it: another package's name, or something of this package. */
  meaning(/** @type {Declarations} */ module, /** @type {string} */ name) {
    const [, source, names] = module.imported.get(name) || [null, undefined, []];
    if (source === undefined || this.inside(module.file.fileName, source)) return 'own';
    return `${this.externals.fileOf(source)} ${names.join('.')}`;
  }

  /** The import by which another module has a name of a module. */
  importOf(/** @type {Declarations} */ module, /** @type {string} */ name) {
    const isMain = module.default && isNamed(module.default) && /** @type {ts.Identifier} */ (module.default.name).text === name;
    const [, source, names] = module.imported.get(name) || [null, null, [isMain ? 'default' : name]];
    const from = JSON.stringify(source === null ? module.file.fileName : this.inside(module.file.fileName, source) || source);
    return names.length ? `import { ${names[0]} as ${name} } from ${from};` : `import * as ${name} from ${from};`;
  }

  /** Finds out which names the libraries of the compiler declare, and looks the declarations of both versions up. */
  load() {
    const [any] = [...this.texts.keys()].filter((it) => !it.endsWith('.json'));
    const bare = programOf(new Map([[any, '']]), () => undefined);
    const scope = bare.getTypeChecker().getSymbolsInScope(/** @type {ts.SourceFile} */ (bare.getSourceFile(any)), F.Type | F.Value | F.Namespace);
    const known = new Set(scope.map((it) => it.name));
    this.externals.declareGlobals((name) => known.has(name));
    const program = this.program();
    this.known = program.getTypeChecker();
    for (const pair of this.pairs.filter(({ name }) => name)) {
      const { declared } = new Declarations(/** @type {ts.SourceFile} */ (program.getSourceFile(pair.file)));
      const [old, now] = [pair.name, pair.name + NEW].map((name) => this.symbolOf(declared.get(name) || []));
      if (old && now) this.compare(pair, old, now, []);
    }
  }

  /** The checker of the program with both versions. */
  get checker() {
    return /** @type {ts.TypeChecker} */ (this.known);
  }

  /** What some declarations of one name declare. */
  symbolOf(/** @type {Named[]} */ [node]) {
    return node && node.name ? this.checker.getSymbolAtLocation(node.name) : undefined;
  }

  behind(/** @type {ts.Symbol} */ symbol) {
    return symbol.flags & F.Alias ? this.checker.getAliasedSymbol(symbol) : symbol;
  }

  /** Asks of two symbols, which stand below the declarations of a pair by some names. */
  compare(/** @type {Pair} */ pair, /** @type {ts.Symbol} */ old, /** @type {ts.Symbol} */ now, /** @type {string[]} */ below) {
    const shown = [pair.name, ...below].join('.');
    for (const [word, flag] of MEANINGS) {
      if (old.flags & flag && !(now.flags & flag)) pair.breaks.push(`${shown} is no ${word} any more`);
      else if (!(old.flags & flag) && now.flags & flag) pair.isAddition = true;
    }
    const has = (/** @type {ts.SymbolFlags} */ flag) => Boolean(old.flags & now.flags & flag);
    if (old.flags & F.Enum && now.flags & F.Enum) this.compareEnums(pair, old, now, shown);
    else {
      if (has(F.Function | F.Class | F.Variable)) this.compareValues(pair, old, now, below, shown);
      if (has(F.Type)) this.compareTypes(pair, old, now, below, shown);
      if (has(F.Namespace)) this.compareNamespaces(pair, old, now, below, shown);
    }
  }

  /** Asks whether a type alias is right in the module of a pair. */
  ask(/** @type {Pair} */ pair, /** @type {string} */ text, list = '') {
    const number = this.asked.length;
    this.add(pair.file, `import { IsSame, IsTrue, IsUsableAs } from ${JSON.stringify(HELPERS)};`);
    this.asked.push({ file: pair.file, text: `type It${number}$${list} = ${text};` });
    return number;
  }

  compareEnums(/** @type {Pair} */ pair, /** @type {ts.Symbol} */ old, /** @type {ts.Symbol} */ now, /** @type {string} */ shown) {
    const [before, after] = [old, now].map((it) => new Map((it.declarations || []).flatMap((each) => (ts.isEnumDeclaration(each) ? [...each.members] : [])).map((each) => [each.name.getText(), each.initializer && each.initializer.getText()])));
    for (const [name, value] of before) {
      if (!after.has(name)) pair.breaks.push(`${shown}.${name} is gone`);
      else if (after.get(name) !== value) pair.breaks.push(`${shown}.${name} has another value`);
    }
    if (!(old.flags & F.ConstEnum) && now.flags & F.ConstEnum) pair.breaks.push(`${shown} is a const enum now, which is no object`);
    const [added] = [...after.keys()].filter((name) => !before.has(name));
    if (added !== undefined) pair.breaks.push(`${shown}.${added} is a value that users do not know`);
  }

  /** How a probe writes the declarations of both versions. */
  access(/** @type {Pair} */ pair, /** @type {string[]} */ below) {
    const path = below.map((name) => (isPlain(name) ? `.${name}` : `[${JSON.stringify(name)}]`)).join('');
    return [pair.name + path, pair.name + NEW + path];
  }

  compareValues(/** @type {Pair} */ pair, /** @type {ts.Symbol} */ old, /** @type {ts.Symbol} */ now, /** @type {string[]} */ below, /** @type {string} */ shown) {
    const widened = [old, now].map(widenedType);
    if (widened.every(Boolean)) {
      if (widened[0] !== widened[1]) pair.breaks.push(`${shown} is of type ${widened[1]}, and was of type ${widened[0]}`);
      return;
    }
    const [before, after] = this.access(pair, below).map((it) => `typeof ${it}`);
    pair.needed.push(this.ask(pair, `IsUsableAs<${after}, ${before}>`));
    pair.sameness.push(this.ask(pair, `IsTrue<IsSame<${before}, ${after}>>`));
    const typeOf = (/** @type {ts.Symbol} */ it) => this.checker.getTypeOfSymbolAtLocation(it, (it.declarations || [])[0]);
    const narrower = this.narrowing().of(typeOf(old), typeOf(now), shown);
    if (narrower) pair.breaks.push(narrower);
  }

  compareTypes(/** @type {Pair} */ pair, /** @type {ts.Symbol} */ old, /** @type {ts.Symbol} */ now, /** @type {string[]} */ below, /** @type {string} */ shown) {
    const isClass = Boolean(old.flags & now.flags & F.Class);
    const parameters = typeParametersOf(old);
    const list = parameters.map((it) => it.getText().replace(/=[^>].*$/s, '').trim()).join(', ');
    const given = parameters.length ? `<${parameters.map((it) => it.name.text).join(', ')}>` : '';
    const ask = (/** @type {string} */ text) => this.ask(pair, text, list && `<${list}>`);
    const [before, after] = this.access(pair, below).map((it) => it + given);
    pair.needed.push(ask(`IsUsableAs<${after}, ${before}>`));
    if (!isClass) pair.needed.push(ask(`IsUsableAs<${before}, ${after}>`));
    pair.sameness.push(ask(`IsTrue<IsSame<${before}, ${after}>>`));
    if (!below.length && this.hasStrict(pair)) {
      const strict = [pair.name + STRICT, pair.name + STRICT + NEW].map((it) => it + given);
      pair.needed.push(ask(`IsUsableAs<${strict[1]}, ${strict[0]}>`));
      if (isClass) pair.sameness.push(ask(`IsTrue<IsSame<${strict[0]}, ${strict[1]}>>`));
    }
    const texts = [old, now].map((it) => typeParametersOf(it).map((each) => each.getText()).join());
    if (texts[0] !== texts[1]) pair.isAddition = true;
    const narrower = this.narrowing().of(this.checker.getDeclaredTypeOfSymbol(old), this.checker.getDeclaredTypeOfSymbol(now), shown) || (isClass && abstraction(old, now));
    if (narrower) pair.breaks.push(narrower);
  }

  /** Whether both declarations of a pair have methods of their own, or could have. */
  hasStrict(/** @type {Pair} */ { nodes }) {
    const isOne = (/** @type {ts.Node} */ it) => ts.isClassDeclaration(it) || ts.isInterfaceDeclaration(it) || (ts.isTypeAliasDeclaration(it) && ts.isTypeLiteralNode(it.type));
    return nodes.every((all) => all.some(isOne));
  }

  compareNamespaces(/** @type {Pair} */ pair, /** @type {ts.Symbol} */ old, /** @type {ts.Symbol} */ now, /** @type {string[]} */ below, /** @type {string} */ shown) {
    const [before, after] = [old, now].map((it) => new Map(this.checker.getExportsOfModule(it).map((each) => [each.name, this.behind(each)])));
    const isOurs = (/** @type {string} */ name) => name !== 'prototype' && !name.endsWith(STRICT);
    for (const [name, symbol] of before) {
      if (!isOurs(name)) continue;
      const other = after.get(name);
      if (!other) pair.breaks.push(`${shown}.${name} is gone`);
      else if ((symbol.declarations || []).length) this.compare(pair, symbol, other, [...below, name]);
    }
    if ([...after.keys()].some((name) => isOurs(name) && !before.has(name))) pair.isAddition = true;
  }

  narrowing() {
    return new Narrowing(this.checker, (node) => this.texts.has(node.getSourceFile().fileName));
  }

  /** What the compiler has against each question; null where it has nothing. */
  answers() {
    for (const { file, text } of this.asked) this.add(file, text);
    const program = this.program();
    const errors = new Map([...new Set(this.asked.map(({ file }) => file))].map((name) => [name, program.getSemanticDiagnostics(program.getSourceFile(name))]));
    return this.asked.map(({ file, text }) => {
      const start = /** @type {ts.SourceFile} */ (program.getSourceFile(file)).text.indexOf(`\n${text}`) + 1;
      const found = (errors.get(file) || []).find((it) => it.start !== undefined && it.start >= start && it.start < start + text.length);
      return found ? reasonText(found.messageText) : null;
    });
  }
}

/**
 * The part of a version number that each of some declarations raises, with the reason where users cannot go on: `{advice, reason}` by their keys. A declaration is
 * `{key, old, now}`, where it stands in both versions: `{specifier, name}`.
 *
 * @returns {Map<string, import('./types').Advised>}
 */
function compatibility(/** @type {World} */ before, /** @type {World} */ after, /** @type {ComparedNames[]} */ declarations) {
  if (!declarations.length) return new Map();
  const comparison = new Comparison(before, after);
  for (const it of declarations) comparison.take(it);
  comparison.load();
  const answers = comparison.answers();
  return new Map(comparison.pairs.map((it) => [it.key, it.advice(answers)]));
}

module.exports = { compatibility };
