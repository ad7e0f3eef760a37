'use strict';
// What users of a module see, as TypeScript's compiler resolves it: each name of a module with the types that it stands for. Nothing here looks at how types are
// written, and nothing knows a rule of fast check.

const { inOrder } = require('./declarations.js');
const { normalise } = require('./surface.js');
const { whole: ts } = require('../compiler/typescript.js');

const { SymbolFlags: S } = ts;
const { AllowUniqueESSymbolType, InTypeAlias, NoTruncation, UseFullyQualifiedType } = ts.TypeFormatFlags;
const FLAGS = NoTruncation | AllowUniqueESSymbolType | InTypeAlias | UseFullyQualifiedType;

class View {
  constructor(/** @type {ts.Program} */ program, /** @type {ts.SourceFile} */ file) {
    this.checker = program.getTypeChecker();
    this.file = file;
  }

  text(/** @type {ts.Type} */ type) {
    const text = this.checker.typeToString(type, undefined, FLAGS);
    return inOrder(normalise(text.replace(/import\("([^"]*\/)?([^"/]*?)(\.[cm]?js)?"\)/g, 'import("$2")')));
  }

  isPrivate(/** @type {ts.Symbol} */ symbol) {
    return (symbol.declarations || []).some((it) => (ts.getCombinedModifierFlags(it) & ts.ModifierFlags.Private) !== 0 || (ts.isClassElement(it) && it.name !== undefined && ts.isPrivateIdentifier(it.name)));
  }

  /**
   * What a property shows: what may be done with it, and its type, of a private one its name alone.
   *
   * @returns {string[]}
   */
  property(/** @type {ts.Symbol} */ symbol) {
    if (this.isPrivate(symbol)) return /^__#/.test(symbol.name) ? [] : [`private ${symbol.name}`];
    const flags = (symbol.declarations || []).reduce((all, it) => all | ts.getCombinedModifierFlags(it), 0);
    const isOnlyRead = flags & ts.ModifierFlags.Readonly || (symbol.flags & S.GetAccessor && !(symbol.flags & S.SetAccessor));
    const words = [flags & ts.ModifierFlags.Protected ? 'protected ' : '', isOnlyRead ? 'readonly ' : ''].join('');
    // A member under a symbol has the number of the symbol in its name.
    return [`${words}${symbol.name.replace(/@\d+$/, '')}${symbol.flags & S.Optional ? '?' : ''}: ${this.text(this.checker.getTypeOfSymbolAtLocation(symbol, this.file))}`];
  }

  /**
   * The members of a type: of a class, an interface, or what makes a class.
   *
   * @returns {string[]}
   */
  members(/** @type {ts.Type} */ type) {
    const { checker } = this;
    const signature = (/** @type {ts.Signature} */ it) => checker.signatureToString(it, undefined, FLAGS);
    return [
      ...checker.getPropertiesOfType(type).filter((it) => it.name !== 'prototype').flatMap((it) => this.property(it)),
      ...checker.getSignaturesOfType(type, ts.SignatureKind.Call).map((it) => inOrder(normalise(signature(it)))),
      ...checker.getSignaturesOfType(type, ts.SignatureKind.Construct).map((it) => `new ${inOrder(normalise(signature(it)))}`),
      ...checker.getIndexInfosOfType(type).map((it) => `[${this.text(it.keyType)}]: ${this.text(it.type)}`),
    ].sort();
  }

  /**
   * What a symbol stands for, as a type, as a value, and as a namespace.
   *
   * @returns {string[]}
   */
  symbol(/** @type {ts.Symbol} */ symbol, seen = new Set()) {
    const { checker } = this;
    if (seen.has(symbol)) return [];
    seen.add(symbol);
    if (symbol.flags & S.Alias) return this.symbol(checker.getAliasedSymbol(symbol), seen);
    const found = [];
    if (symbol.flags & (S.Class | S.Interface)) found.push(`type { ${this.members(checker.getDeclaredTypeOfSymbol(symbol)).join('; ')} }`);
    if (symbol.flags & S.TypeAlias) found.push(`type ${this.text(checker.getDeclaredTypeOfSymbol(symbol))}`);
    if (symbol.flags & S.Enum) {
      const members = (symbol.declarations || []).filter(ts.isEnumDeclaration).flatMap((it) => [...it.members]);
      found.push(`enum { ${members.map((it) => `${/** @type {ts.Identifier} */ (it.name).text} = ${checker.getConstantValue(it)}`).join(', ')} }`);
    } else if (symbol.flags & S.Class) found.push(`class { ${this.members(checker.getTypeOfSymbolAtLocation(symbol, this.file)).join('; ')} }`);
    else if (symbol.flags & (S.Variable | S.Function)) {
      const type = checker.getTypeOfSymbolAtLocation(symbol, this.file);
      found.push(symbol.flags & S.Function ? `function { ${this.members(type).join('; ')} }` : `value ${this.text(type)}`);
    }
    if (symbol.flags & S.Namespace && symbol.exports) {
      const names = checker.getExportsOfModule(symbol).filter((it) => !(symbol.flags & S.Enum) || !(it.flags & S.EnumMember));
      found.push(...names.map((it) => `${it.name}: ${this.symbol(it, seen).join(' & ')}`).sort());
    }
    return found;
  }
}

/**
 * The names of a file that a program has, each with what it stands for.
 *
 * @returns {Map<string, string>}
 */
function viewOf(/** @type {ts.Program} */ program, /** @type {string} */ name) {
  const file = /** @type {ts.SourceFile} */ (program.getSourceFile(name));
  const view = new View(program, file);
  const module = view.checker.getSymbolAtLocation(file);
  const exported = module ? view.checker.getExportsOfModule(module) : [];
  const locals = [...(file.locals || [])].filter(([key]) => !String(key).startsWith('__'));
  const names = new Map(locals.map(([key, it]) => [`${key}`, view.symbol(it.exportSymbol || it).join('\n')]));
  names.set('(exports)', exported.map((it) => it.name).sort().join(' '));
  return names;
}

/** Where a view is another one, for the names that both have and for the exports: `[name, one, other]`. */
function differing(/** @type {Map<string, string>} */ one, /** @type {Map<string, string>} */ other) {
  return [...one].filter(([name, text]) => other.has(name) && other.get(name) !== text).map(([name, text]) => [name, text, /** @type {string} */ (other.get(name))]);
}

module.exports = { differing, viewOf };
