'use strict';
// Random modules of TypeScript, of all forms that a tree may have, from a seed.

const { isFrom } = require('../src/compiler/typescript.js');

/** Random numbers of a seed, the same everywhere. */
class Random {
  constructor(/** @type {number} */ seed) {
    this.state = seed >>> 0;
  }

  /** A number from 0 to below `count`. */
  below(/** @type {number} */ count) {
    this.state = (this.state + 0x6d2b79f5) >>> 0;
    let made = Math.imul(this.state ^ (this.state >>> 15), this.state | 1);
    made ^= made + Math.imul(made ^ (made >>> 7), made | 61);
    return Math.floor((((made ^ (made >>> 14)) >>> 0) / 4294967296) * count);
  }

  /** Whether one of so many chances comes. */
  one(/** @type {number} */ count) {
    return this.below(count) === 0;
  }

  /**
   * One of a list.
   *
   * @template T
   * @param {readonly T[]} list
   */
  of(list) {
    return list[this.below(list.length)];
  }

  /** Up to `most` texts that a call makes. */
  list(/** @type {number} */ most, /** @type {(place: number) => string} */ make) {
    return Array.from({ length: this.below(most + 1) }, (_, place) => make(place));
  }
}

const TYPES = ['A', 'B', 'C', 'D', 'E', 'N'];
const VALUES = ['a', 'b', 'f', 'g', 'A', 'C', 'E', 'N', 'Object', 'Symbol'];
const KEYS = ['a', 'b', 'prototype', 'default', '"a b"', '1', '[a]', '["c"]', '[Symbol.iterator]'];
const LITERALS = ['1', '0x1f', '1.5e3', '10n', '"text"', "'it\\'s'", 'true', 'false', 'null', '/a+[/]/gu', '`plain`'];
const KEYWORDS = ['any', 'unknown', 'number', 'string', 'boolean', 'object', 'bigint', 'symbol', 'void', 'undefined', 'null', 'never'];
const BINARY = ['+', '-', '*', '**', '%', '<<', '>>>', '&', '|', '^', '<', '>=', '==', '!==', 'in', 'instanceof'];
const ASSIGN = ['=', '+=', '??=', '&&=', '>>>='];
const SOURCES = ['./m0.ts', './m1', './m2.js', './none.ts', 'outside', 'node:fs', 'npm:thing@1'];
const COMMENTS = ['', '', '', '/** doc */ ', '// line\n', '/* block */ ', '// @ts-ignore\n'];

/** Writes one module. `depth` bounds how deep its forms go, `isDeclaration` says that it is a declaration file. */
class ModuleWriter {
  constructor(/** @type {number} */ seed, isDeclaration = false) {
    this.r = new Random(seed);
    this.isDeclaration = isDeclaration;
    this.depth = 0;
  }

  /** One of the makers, and of the plain ones alone where the text is deep. */
  choose(/** @type {(() => string)[]} */ plain, /** @type {(() => string)[]} */ deep) {
    const makers = this.depth > 3 ? plain : [...plain, ...deep];
    this.depth += 1;
    const made = this.r.of(makers)();
    this.depth -= 1;
    return made;
  }

  /**
   * A text, or those of a list, or what makes either: by one of so many chances.
   *
   * @template {string | string[]} T
   * @param {T | (() => T)} text
   * @returns {T | ''}
   */
  maybe(text, chances = 2) {
    return this.r.one(chances) ? (typeof text === 'function' ? text() : text) : '';
  }

  // ---- types

  /** @returns {string} */
  type() {
    const { r } = this;
    const list = (/** @type {number} */ most) => r.list(most, () => this.type());
    const wrapped = () => `(${this.type()})`;
    return this.choose([
      () => r.of(KEYWORDS), () => r.of(TYPES), () => r.of(['"x"', '1', '-2', '-3n', 'true']), () => `N.${r.of(TYPES)}`,
      () => `typeof ${r.of(['a', 'N.a', 'f'])}`, () => 'this',
    ], [
      () => `${r.of(TYPES)}<${[this.type(), ...list(1)].join(', ')}>`,
      () => `${wrapped()}[]`, () => `readonly ${wrapped()}[]`, () => `${wrapped()}[${this.type()}]`, () => `keyof ${wrapped()}`,
      () => `[${r.list(3, () => r.of([this.type(), `${wrapped()}?`, `...${wrapped()}[]`])).join(', ')}]`,
      () => `[a: ${this.type()}, b?: ${this.type()}, ...c: ${wrapped()}[]]`,
      () => `${this.maybe('| ')}${[wrapped(), ...list(2).map((it) => `(${it})`)].join(' | ')}`, () => [wrapped(), wrapped()].join(' & '),
      () => `${wrapped()} extends ${r.of([wrapped(), `Array<infer U${this.maybe(' extends string')}>`])} ? ${this.type()} : ${wrapped()}`,
      () => `${this.maybe('abstract new ', 4) || this.maybe('new ', 4)}${this.typeParameters()}(${this.parameters(true)}) => ${this.type()}`,
      () => this.mappedType(),
      () => `{ ${this.signatures()} }`, () => `\`x\${${this.type()}}y\``,
      () => `import(${JSON.stringify(r.of(SOURCES))})${this.maybe('.A')}${this.maybe('<1>', 4)}`,
      () => `typeof import(${JSON.stringify(r.of(SOURCES))})`, wrapped,
    ]);
  }

  /** @returns {string} */
  mappedType() {
    const readonly = this.maybe(this.r.of(['readonly ', '-readonly ', '+readonly ']));
    const renamed = this.maybe(' as `x${K & string}`', 3);
    return `{ ${readonly}[K in ${this.type()}${renamed}]${this.r.of(['', '?', '-?', '+?'])}: ${this.type()} }`;
  }

  /** @returns {string} */
  annotation(chances = 2) {
    return this.maybe(() => `: ${this.type()}`, chances);
  }

  /** @returns {string} */
  returned() {
    return this.maybe(() => `: ${this.r.of([() => this.type(), () => 'p is string', () => 'asserts p', () => 'asserts p is 1'])()}`);
  }

  /** @returns {string} */
  typeParameters() {
    const bound = () => `${this.maybe(() => ` extends ${this.type()}`, 3)}${this.maybe(() => ` = ${this.type()}`, 4)}`;
    const one = () => `${this.maybe('in ', 9)}${this.r.of(['T', 'U'])}${bound()}`;
    return this.maybe(() => `<${[one(), ...this.r.list(1, one)].join(', ')}>`, 4);
  }

  /** @returns {string} */
  signatures() {
    const { r } = this;
    const key = () => r.of(KEYS);
    const one = () => r.of([
      () => `${this.maybe('readonly ')}${key()}${this.maybe('?')}${this.annotation()}`,
      () => `${key()}${this.maybe('?')}${this.typeParameters()}(${this.parameters(true)})${this.annotation()}`,
      () => `${this.typeParameters()}(${this.parameters(true)})${this.annotation()}`, () => `new (${this.parameters(true)})${this.annotation()}`,
      () => `${this.maybe('readonly ')}[key: string]: ${this.type()}`, () => `get ${key()}()${this.annotation()}`,
      () => `set ${key()}(v${this.annotation()})`,
    ])();
    return r.list(4, () => `${r.of(COMMENTS)}${one()};`).join(' ');
  }

  // ---- parameters and patterns

  /** @returns {string} */
  pattern() {
    const { r } = this;
    const value = () => this.maybe(() => ` = ${this.value()}`, 3);
    return this.choose([() => r.of(['p', 'q', 'a'])], [
      () => `{ ${[...r.list(2, () => r.of([() => `p${value()}`, () => `${r.of(['a', '"b"', '[a]'])}: ${this.pattern()}${value()}`])()),
      ...this.maybe(['...rest'], 4)].join(', ')} }`,
      () => `[${[...r.list(2, () => this.maybe(() => `${this.pattern()}${value()}`, 2)), ...this.maybe(['...rest'], 4)].join(', ')}]`,
    ]);
  }

  /** @returns {string} */
  parameters(isSignature = this.isDeclaration) {
    const { r } = this;
    const one = () => r.of([
      () => `${this.pattern()}${this.annotation()}${isSignature ? '' : this.maybe(() => ` = ${this.value()}`)}`,
      () => `${r.of(['p', 'q'])}?${this.annotation()}`,
    ])();
    return [...this.maybe([`this: ${this.type()}`], 9), ...r.list(3, one), ...this.maybe(() => [`...rest${this.annotation()}`], 4)].join(', ');
  }

  /**
   * The type parameters, the parameters and the return type of a function.
   *
   * @returns {string}
   */
  signature(/** @type {boolean} */ isSignature) {
    return `${this.typeParameters()}(${this.parameters(isSignature)})${this.returned()}`;
  }

  // ---- values

  /** @returns {string} */
  value() {
    const { r } = this;
    const operand = () => `(${this.value()})`;
    const list = () => r.list(2, () => `${this.maybe('...', 6)}${operand()}`).join(', ');
    return this.choose([() => r.of(LITERALS), () => r.of(VALUES), () => 'this', () => `${r.of(VALUES)}.${r.of(['a', 'b'])}`, () => 'import.meta',
    () => '[]', () => '({})'], [
      () => `[${r.list(3, () => this.maybe(() => `${this.maybe('...', 6)}${operand()}`, 2)).join(', ')}]`, () => `({ ${this.properties()} })`,
      () => `${r.of(['-', '+', '!', '~', 'typeof ', 'void ', 'delete ', 'await '])}${operand()}`, () => `${r.of(VALUES)}${r.of(['++', '--'])}`,
      () => `++${r.of(VALUES)}`,
      () => `${operand()} ${r.of(BINARY)} ${operand()}`, () => `${operand()} ?? ${operand()}`, () => `${operand()} && ${operand()} || ${operand()}`,
      () => `(${r.of(VALUES)} ${r.of(ASSIGN)} ${operand()})`, () => `([${this.pattern()}] = ${operand()})`,
      () => `${operand()} ? ${operand()} : ${operand()}`,
      () => `${r.of(VALUES)}${this.maybe('<A>', 6)}(${list()})`, () => `new ${r.of(TYPES)}${this.maybe(() => `${this.maybe('<A>', 3)}(${list()})`)}`,
      () => `Object.freeze({ ${this.properties()} })`, () => `Symbol(${list()})`, () => `${r.of(VALUES)}${r.of(['?.', '!.', '.'])}b[${operand()}]`,
      () => `${r.of(VALUES)}?.(${list()})`,
      () => `(${this.maybe('async ')}${this.typeParameters()}(${this.parameters(false)})${this.returned()} => ${r.of([() => this.block(),
      () => `(${this.value()})`])()})`,
      () => `(${this.maybe('async ', 4)}function${this.maybe('*', 5)} ${this.maybe('named')}${this.signature(false)} ${this.block()})`,
      () => `(class ${this.maybe('Named ')}${this.classTail()})`, () => `(${this.value()} as ${r.of(['const', `(${this.type()})`])})`,
      () => `<${this.type()}>${operand()}`, () => `${operand()}!`,
      () => `\`x\${${this.value()}}y\``, () => `a\`t\${${this.value()}}\``, () => `(${this.value()}, ${this.value()})`,
      () => `import(${JSON.stringify(r.of(SOURCES))})`, operand,
      ...(isFrom(4, 9) ? [() => `(${this.value()} satisfies ${this.type()})`] : []),
    ]);
  }

  /** @returns {string} */
  properties() {
    const { r } = this;
    const key = () => r.of(KEYS);
    return r.list(3, () => r.of([
      () => `${key()}: ${this.value()}`, () => r.of(['a', 'b']), () => `...(${this.value()})`,
      () => `${this.maybe('async ', 5)}${this.maybe('*', 5)}${key()}(${this.parameters(false)})${this.returned()} ${this.block()}`,
      () => `get ${key()}()${this.annotation()} ${this.block()}`, () => `set ${key()}(v${this.annotation()}) ${this.block()}`,
    ])()).join(', ');
  }

  // ---- statements

  /** @returns {string} */
  block() {
    return this.r.of([() => '{}', () => '{ return; }', () => `{ return ${this.value()}; }`, () => `{ ${this.statements(2)} }`,
    () => `{ ${this.statements(2)} return ${this.value()}; }`])();
  }

  /** @returns {string} */
  statements(/** @type {number} */ most) {
    return this.r.list(most, () => this.statement()).join(' ');
  }

  /** @returns {string} */
  statement() {
    const { r } = this;
    const nested = () => `{ ${this.statements(1)} }`;
    const head = () => `${r.of(['const', 'let', 'var'])} ${this.pattern()}`;
    return this.choose([() => ';', () => `${r.of(VALUES)}.${r.of(['a', 'b'])} = ${this.value()};`, () => `f(${this.value()});`, () => 'debugger;',
    () => `throw ${this.value()};`], [
      nested, () => `if (a) ${nested()}${this.maybe(() => ` else ${nested()}`)}`, () => `for (let i = 0; i < 1; i++) ${nested()}`,
      () => 'for (;;) {}', () => `for (${head()} of ${this.value()}) ${nested()}`,
      () => `for (const k in ${this.value()}) ${nested()}`, () => `for await (const k of a) ${nested()}`, () => `while (a) ${nested()}`,
      () => `do ${nested()} while (a);`,
      () => `switch (a) { case ${this.value()}: ${this.statements(1)} break; default: ${this.statements(1)} }`, () => 'switch (a) {}',
      () => `label: while (a) { continue label; }`,
      () => `try ${nested()} catch${this.maybe(' (e)')} ${nested()}${this.maybe(() => ` finally ${nested()}`)}`, () => `if (a) return ${this.value()};`,
      () => this.declaration(''),
    ]);
  }

  // ---- declarations

  /** @returns {string} */
  declaration(/** @type {string} */ words) {
    const { r } = this;
    const isAmbient = this.isDeclaration || /declare/.test(words);
    const body = () => (isAmbient ? ';' : ` ${this.block()}`);
    const init = () => (isAmbient ? '' : ` = ${this.value()}`);
    const variable = () => `${r.of([() => `${r.of(['a', 'b'])}${this.annotation()}${init()}`,
    () => (isAmbient ? 'c: 1' : `${this.pattern()} = ${this.value()}`)])()}`;
    return `${words}${this.choose([
      () => `${r.of(['const', 'let', 'var'])} ${[variable(), ...r.list(1, variable)].join(', ')};`,
      () => `type ${r.of(TYPES)}${this.typeParameters()} = ${this.type()};`,
      () => `interface ${r.of(TYPES)}${this.typeParameters()} ${this.maybe(() => `extends ${r.of(TYPES)}, N.A<${this.type()}> `, 3)}{ ${this.signatures()} }`,
      () => `${this.maybe('const ')}enum ${r.of(['E', 'N'])} { ${r.list(3,
      () => `${r.of(['A', 'B', '"c d"'])}${this.maybe(() => ` = ${r.of(['1', '"x"', 'A', '1 << 2', 'a', '`t`'])}`)}`).join(', ')} }`,
      () => `${isAmbient ? 'function ' : `${this.maybe('async ', 4)}function${this.maybe('*', 5)} `}${r.of(['f', 'g'])}${this.signature(isAmbient)}${body()}`,
    ], [
      () => `${this.maybe('abstract ', 3)}class ${r.of(TYPES)}${this.classTail(isAmbient)}`,
      () => `namespace ${r.of(['N', 'E', 'f', 'N.M'])} { ${r.list(3, () => this.declaration(r.of(['', 'export ']))).join(' ')} }`,
    ])}`;
  }

  /** @returns {string} */
  classTail(isAmbient = false) {
    const { r } = this;
    const base = this.maybe(() => ` extends ${isAmbient ? 'B' : r.of(['B', 'N.B', `(${this.value()})`])}`, 3);
    return `${this.typeParameters()}${base}${this.maybe(() => ` implements ${r.of(TYPES)}, N.A`, 4)} { ${r.list(5,
    () => `${r.of(COMMENTS)}${this.member(isAmbient)}`).join(' ')} }`;
  }

  /** @returns {string} */
  member(/** @type {boolean} */ isAmbient) {
    const { r } = this;
    const access = r.of(['', '', 'public ', 'protected ', 'private ']);
    const body = () => (isAmbient ? ';' : r.of([' {}', ` ${this.block()}`]));
    const init = () => (isAmbient ? '' : this.maybe(() => ` = ${this.value()}`));
    const key = () => r.of(KEYS);
    const property = () => `${access}${this.maybe('static ', 4)}${this.maybe('readonly ', 3)}${key()}${this.maybe('?', 5)}${this.annotation()}${init()};`;
    const word = () => r.of(['public ', 'private ', 'readonly ', 'protected readonly ']);
    const parameter = () => `${word()}${r.of(['p', 'q'])}${this.annotation()}${this.maybe(() => ` = ${this.value()}`, 3)}`;
    return r.of([
      property, property,
      () => `${access}${this.maybe('static ', 4)}${isAmbient ? '' : this.maybe('async ', 5)}${key()}${this.signature(isAmbient)}${body()}`,
      () => `${access}get ${key()}()${this.annotation()}${body()}`, () => `${access}set ${key()}(v${this.annotation()})${body()}`,
      () => `static [key: string]: ${this.type()};`, () => ';',
      ...(isAmbient ? [() => 'constructor(p?: 1);', () => '#x;'] : [
        () => `constructor(${r.list(2, parameter).join(', ')}) { ${this.maybe('super(a, ...b);')} }`,
        () => `constructor(p: ${this.type()}); constructor(p) {}`, () => `#x${this.annotation()}${init()};`,
        () => `static { ${this.statements(1)} }`, () => `#m() ${this.block()}`, () => `declare ${key()}${this.annotation()};`,
        () => `@a @b(${this.value()}) ${property()}`,
        () => `m(p: 1): 1; m(p: 2): 2; m(p) ${this.block()}`, ...(isFrom(4, 9) ? [() => `${access}accessor ${key()}${this.annotation()}${init()};`] : []),
      ]),
    ])();
  }

  // ---- modules

  item() {
    const { r } = this;
    const source = () => JSON.stringify(r.of(SOURCES));
    const declare = this.isDeclaration ? ['export declare ', 'declare ', 'export '] : ['', '', 'export ', 'export ', 'export declare '];
    const rare = () => r.of([
      () => `import a = require(${source()});`, () => 'import A = N.A;', () => 'export import B = N;', () => 'declare global { interface A {} }',
      () => `declare module ${source()} { export type A = 1; }`,
      () => 'export as namespace Lib;', () => `export = ${r.of(VALUES)};`,
    ])();
    const defaults = () => r.of([
      () => `export default ${this.isDeclaration ? r.of(VALUES) : `(${this.value()})`};`, () => `export default interface A { ${this.signatures()} }`,
      () => `export default ${this.maybe('abstract ', 4)}class ${this.maybe('C')}${this.classTail(this.isDeclaration)}`,
      () => `export default function ${this.maybe('f')}(${this.parameters()})${this.returned()}${this.isDeclaration ? ';' : ` ${this.block()}`}`,
    ])();
    const names = () => r.list(2, () => r.of(['a', 'A as B', 'default as d', 'type C', 'f'])).join(', ');
    return r.of([
      ...Array.from({ length: 9 }, () => () => this.declaration(r.of(declare))), ...(this.isDeclaration ? [] : [() => this.statement(),
      () => `f.${r.of(['a', 'b'])} = ${this.value()};`]),
      () => `import ${this.maybe('type ', 4)}{ ${names()} } from ${source()};`,
      () => `import ${r.of(['d', '* as N', 'd, * as N', 'd, { a }', 'type { A }'])} from ${source()};`, () => `import ${source()};`,
      () => `export { ${r.list(2, () => r.of(['a', 'A as B', 'f as default', 'type C'])).join(', ')} };`,
      () => `export ${this.maybe('type ', 4)}{ ${names()} } from ${source()};`,
      () => `export * ${this.maybe('as N ', 3)}from ${source()};`, defaults, ...(r.one(6) ? [rare] : []),
    ])();
  }

  module() {
    return Array.from({ length: 1 + this.r.below(8) }, () => `${this.r.of(COMMENTS)}${this.item()}\n`).join('');
  }
}

module.exports = { ModuleWriter, Random };
