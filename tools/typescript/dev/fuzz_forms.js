'use strict';
// Random modules whose declarations mean something to a compiler, from a seed: each name is declared, and most types are written.

const { Random } = require('./fuzz_modules.js');
const { isFrom } = require('../src/compiler/typescript.js');

const KINDS = ['.ts', '.ts', '.tsx', '.mts', '.cts'];
const TYPES = [
  'number', 'string', 'boolean', 'number | null', 'string | undefined', '"a" | "b"', 'string[]', '{ a: number | null }', '() => boolean', '[number, string]', 'unknown', 'any',
];
const LITERALS = ['1', '"a"', 'true', '-1', '10n', '`t`', 'null', '/a/'];
const VALUES = [
  'flag ? 1 : 2', 'flag ? "a" : "a"', 'flag ? 1 : null', '[1, 2]', '[..."abc"]', '[1, ...[2]]', 'text + "a"', '+text', 'typeof text', '`a${text}`', '1 + 2',
  'text as string', '[1] as const', '{ a: 1, "b-c": "x", 3: true }', '{ a: 1 } as const', '[1, "a"] as const', 'void 0', 'Object.freeze({ a: 1, b: flag ? 1 : 2 })',
  '(1)', '() => flag ? 1 : 2', '() => 1', 'Object.freeze([1, 2])', 'Object.freeze({ a: Symbol.iterator, b: "x", c: [1], d: { e: 1 } })', '(a: number) => [a]',
  'flag === true', 'undefined', 'Symbol.iterator', 'mark', '[mark] as const', '{ a: mark }',
];
const RESERVED = ['delete', 'default', 'in', 'new', 'class', 'static', 'plain', 'other'];
const KEYS = ['name', '"quoted"', '1', '"a-b"', '["computed"]', '[Symbol.iterator]', '[mark]', 'get', 'static'];
const GLOBALS = ['Promise', 'RegExp', 'Readonly', 'Array', 'Symbol'];

/** Writes the modules of one package. */
class FormWriter {
  constructor(/** @type {number} */ seed) {
    this.r = new Random(seed);
    this.count = 0;
    /** @type {Set<string>} */
    this.hoisted = new Set();
    // What the module at hand has.
    /** @type {string[]} */
    this.types = [];
    /** @type {string[]} */
    this.values = [];
    /** @type {string[]} */
    this.consts = [];
    this.hasHoisted = false;
    this.hasItself = false;
    this.file = '';
  }

  name(/** @type {string} */ prefix) {
    this.count += 1;
    return `${prefix}${this.count}`;
  }

  type() {
    const { r } = this;
    if (r.one(4) && this.types.length) return r.of(this.types);
    if (r.one(6) && this.values.length) return `typeof ${r.of(this.values)}`;
    return r.of(TYPES);
  }

  /** A value that has a written type: what it is does not matter. */
  any() {
    return 'load()';
  }

  /** @returns {[string, string][]} */
  modules() {
    const amount = 1 + this.r.below(3);
    const names = Array.from({ length: amount }, (_, place) => `m${place}${this.r.of(KINDS)}`);
    return names.map((name, place) => [name, this.module(name, names[place - 1])]);
  }

  /** @returns {string} */
  module(/** @type {string} */ name, /** @type {string | undefined} */ before) {
    const { r } = this;
    this.types = [];
    this.values = [];
    this.consts = [];
    this.hasHoisted = false;
    this.hasItself = false;
    this.file = name;
    this.before = before;
    const lines = ['declare function load(): any;', 'declare const flag: boolean;', 'declare const text: string;', 'const mark: unique symbol = Symbol();'];
    if (r.one(8)) lines.push(...this.shadow());
    const forms = /** @type {const} */ ([
      'namespaces', 'namespaces', 'accessors', 'typeOf', 'typeOf', 'arrows', 'expando', 'hoisted', 'overloads', 'privates', 'literals', 'values', 'merged', 'later',
      'itself', 'functions', 'plain', 'defaults', 'enumBlocks', 'others',
    ]);
    for (let items = 2 + r.below(6); items > 0; items--) lines.push(...this[`${r.of(forms)}Of`]());
    return `${lines.join('\n')}\n`;
  }

  declared(/** @type {string} */ prefix, /** @type {'types' | 'values' | 'consts'} */ list) {
    const made = this.name(prefix);
    this[list].push(made);
    return made;
  }

  shadow() {
    const name = this.r.of(GLOBALS);
    return [this.r.of([
      `export class ${name}<T> { it?: T; }`, `export interface ${name}<T> { it: T }`, `export type ${name}<T> = T;`, `function ${name}(): void {}`,
      `namespace N0 { export class ${name}<T> { it?: T } }`,
    ])];
  }

  // ---- namespaces in several blocks

  part(/** @type {string[]} */ names) {
    const { r } = this;
    const name = () => r.of(names);
    return r.of([
      () => `export enum ${name()} { ${r.list(2, (place) => `${this.name('M')}${r.one(2) ? ` = ${place + 1}` : ''}`).join(', ') || 'A0 = 5'} }`,
      () => `export interface ${name()} { ${this.name('p')}: ${this.type()} }`,
      () => `export namespace ${name()} { export const ${this.name('v')}: ${this.type()} = load(); ${r.one(2) ? `export enum ${this.name('E')} { A, B }` : ''} }`,
      () => `export class ${this.name('C')} { ${this.name('p')}: ${this.type()} = load(); }`,
      () => `export function ${this.name('f')}(a: ${this.type()}): ${this.type()} { return load(); }`,
      () => `export const ${this.name('k')}: ${this.type()} = load();`,
      () => `const ${this.name('hidden')} = 1;`,
      () => `export type ${this.name('T')} = ${this.type()};`,
      () => { const own = this.name('u'); return `export const ${own}: ${this.type()} = load(); export type ${this.name('T')} = typeof ${own};`; },
    ])();
  }

  namespacesOf() {
    const { r } = this;
    const space = this.name('N');
    // Each name has one kind within all blocks, as the compiler asks: enums merge with enums, and so on.
    const kinds = ['enum', 'interface', 'namespace'].map((kind) => [kind, this.name('X')]);
    const block = () => {
      const parts = Array.from({ length: 1 + r.below(3) }, () => {
        const [kind, name] = r.of(kinds);
        if (r.one(2)) return this.part([this.name('Y')]);
        if (kind === 'enum') return `export enum ${name} { ${this.name('M')} = ${r.below(9)} }`;
        if (kind === 'interface') return `export interface ${name} { ${this.name('p')}: ${this.type()} }`;
        return `export namespace ${name} { export const ${this.name('v')}: ${this.type()} = load(); }`;
      });
      return `${r.one(5) ? '' : 'export '}namespace ${space}${this.dotted} { ${parts.join(' ')} }`;
    };
    this.dotted = r.one(4) ? '.Inner' : '';
    const word = r.one(5) ? '' : 'export ';
    const made = Array.from({ length: 1 + r.below(3) }, () => block().replace(/^(export )?namespace/, `${word}namespace`));
    return word ? made : [...made, `export { ${space} };`];
  }

  enumBlocksOf() {
    const { r } = this;
    const name = this.declared('E', 'types');
    const first = this.name('M');
    const word = r.of(['enum', 'enum', 'const enum']);
    const second = `export ${word} ${name} { ${this.name('M')} = ${r.of([first, `${name}.${first}`, '1 << 2', `${first} + 1`, '-1'])}, ${this.name('M')} = ${r.of(['7', '1 | 2', '(2)', '~1'])} }`;
    return [`export ${word} ${name} { ${first} = ${r.of(['1', '0x10', '1 + 1'])} }`, ...(r.one(2) ? [second] : [])];
  }

  // ---- classes

  accessorsOf() {
    const { r } = this;
    const inUnion = (/** @type {string} */ type) => (type.includes('=>') ? `(${type})` : type);
    const pair = () => {
      const name = this.name('v');
      const [own, more] = [this.type(), r.one(2) ? this.type() : null].map((it) => it && inUnion(it));
      const word = r.one(3) ? 'static ' : '';
      const getter = r.of([`get ${name}(): ${own} { return load(); }`, `get ${name}() { return ${r.of(LITERALS)}; }`]);
      const parts = [`${word}${getter}`, ...(r.one(4) ? [] : [`${word}set ${name}(it: ${own}${more ? ` | ${more}` : ''}) {}`])];
      return (r.one(2) ? parts : parts.reverse()).join(' ');
    };
    return [`export class ${this.declared('A', 'types')} { ${Array.from({ length: 1 + r.below(3) }, pair).join(' ')} }`];
  }

  overloadsOf() {
    const { r } = this;
    const one = () => {
      const key = r.of(KEYS);
      const word = r.one(3) && !key.includes('iterator') ? 'static ' : '';
      const returned = key.includes('iterator') ? 'Iterator<string>' : this.type();
      return `${word}${key}(a: string): ${returned}; ${word}${key}(a: number): ${returned}; ${word}${key}(a: unknown): ${returned} { return load(); }`;
    };
    return [`export class ${this.declared('O', 'types')} { ${one()} ${this.name('p')}: ${this.type()} = load(); }`];
  }

  privatesOf() {
    const { r } = this;
    const name = this.name('p');
    const members = [
      'private NAME(): void {}', 'private static NAME(): void {}', 'private NAME = 1;', 'private static NAME = 1;', 'private get NAME() { return load(); }', '#NAME = 1;',
      'protected static NAME2: number = 1;',
    ];
    const [one, other] = [r.of([0, 2, 4]), r.of([1, 3])];
    const made = [members[one], members[other], ...(r.one(2) ? [members[5 + r.below(2)]] : [])].map((it) => it.replace(/NAME/g, name));
    return [`export class ${this.declared('P', 'types')} { ${made.join(' ')} ${r.one(2) ? `constructor(private ${this.name('q')}: number, public ${this.name('q')}: ${this.type()}) {}` : ''} }`];
  }

  mergedOf() {
    const name = this.declared('G', 'types');
    return [`export class ${name} { ${this.name('p')}: ${this.type()} = load(); }`, `export namespace ${name} { export const ${this.name('v')}: ${this.type()} = load(); }`,
      ...(this.r.one(2) ? [`export interface ${name} { ${this.name('q')}: ${this.type()} }`] : [])];
  }

  // ---- values

  typeOfOf() {
    const { r } = this;
    const word = r.of(['const', 'let', 'var']);
    const name = this.declared('x', 'values');
    const alias = this.declared('T', 'types');
    const inner = r.of([`typeof ${name}`, `() => typeof ${name}`, `{ a: typeof ${name} }`, `(typeof ${name})[]`]);
    return [`export ${word} ${name}: ${this.type().replace(`typeof ${name}`, 'number')} = load();`, `export type ${alias} = ${inner};`,
      ...(r.one(2) ? [`export function ${this.name('f')}(a: typeof ${name}): ${alias} { return load(); }`] : [])];
  }

  arrowsOf() {
    const { r } = this;
    const name = this.name('a');
    return [r.of([
      `export const ${name} = <T,>(it: T): T => it;`, `export const ${name} = <T extends object>(it: T): T => it;`, `export const ${name} = async <T,>(it: T): globalThis.Promise<T> => it;`,
      `export const ${name} = <T, U>(it: T, other: U): [T, U] => [it, other];`, `export const ${name} = { call: <T,>(it: T): T => it };`,
      `export class ${this.name('K')} { make = <T,>(it: T): T => it; }`, `export const ${name} = <T = string,>(it: T): T => it;`,
    ])];
  }

  defaultsOf() {
    const name = this.name('d');
    const type = this.type();
    return [this.r.of([
      `export const ${name} = (a: ${type} = load()) => a;`, `export const ${name} = (a = 1) => [a];`, `export const ${name} = (a = "x"): string => a;`,
      `export function ${name}(a: ${type} = load(), b = 1): void {}`, `export const ${name} = (a?: ${type}) => a;`, `export const ${name} = ({ a = 1 }: { a?: number }) => a;`,
      `export function ${name}(a: ${type} = load(), b: ${type}): void {}`, `export const ${name} = (a: ${type} = load()) => () => a;`,
    ])];
  }

  expandoOf() {
    const { r } = this;
    const name = this.name('f');
    const keys = [...new Set(r.list(3, () => r.of(RESERVED)))];
    const value = () => r.of(['1', '"a"', 'true', '[1]', '(): void => {}', '{ a: 1 }', 'load() as number | null', 'text as string']);
    return [`export function ${name}(): void {}`, ...keys.map((key) => `${name}${isFrom(5, 0) && key === 'plain' && r.one(2) ? '["plain"]' : `.${key}`} = ${value()};`)];
  }

  hoistedOf() {
    // The compiler's declarations of such a module have no declaration of the variable.
    if (this.hasItself) return [];
    this.hasHoisted = true;
    this.hoisted.add(this.file);
    const name = this.name('h');
    const type = this.type();
    const declared = `var ${name}: ${type} = load();`;
    const block = this.r.of([`if (flag) { ${declared} }`, `try { ${declared} } catch {}`, `for (var ${name}: number = 0; ${name} < 1; ${name}++) {}`, `while (flag) ${declared}`,
      `switch (text) { case "a": ${declared} }`, `{ { ${declared} } }`, `for (var ${name} of [1]) {}`]);
    return [block, `export { ${name} };`];
  }

  literalsOf() {
    const { r } = this;
    const name = this.declared('c', 'consts');
    const other = this.name('l');
    const uses = [`export const ${other} = { id: ${name} };`, `export let ${other} = ${name};`, `export const ${other} = ${name};`, `export const ${other} = [${name}];`,
      `export class ${this.name('K')} { id = ${name}; readonly fixed = ${name}; }`, `export const ${other} = { id: ${name} } as const;`, `export const ${other} = () => ${name};`];
    return [`${r.one(2) ? 'export ' : ''}const ${name} = ${r.of(['"x"', '1', 'true', '-1', '"x" as const'])};`, r.of(uses)];
  }

  /**
   * A value that may stay in a skeleton.
   *
   * @returns {string}
   */
  value(depth = 0) {
    const { r } = this;
    const inner = (/** @type {string} */ before, /** @type {string} */ after) => (depth > 2 ? '1' : `${before}${this.value(depth + 1)}${after}`);
    const found = r.of(['', ...VALUES.slice(0, 19), '[', '{', ...VALUES.slice(19)]);
    if (!found) return r.of(LITERALS);
    return found === '[' ? inner('[', ']') : found === '{' ? inner('{ a: ', ' }') : found;
  }

  valuesOf() {
    const { r } = this;
    const [word, name] = [r.of(['const', 'const', 'let', 'var']), this.name('w')];
    return [r.of([
      `export ${word} ${name} = ${this.value()};`,
      `export class ${this.name('V')} { ${r.of(['', 'readonly ', 'static ', 'static readonly '])}${name} = ${this.value()}; }`,
      `export const ${name} = () => (${this.value()});`,
    ])];
  }

  laterOf() {
    const name = this.name('g');
    return [this.r.of([`export async function ${name}() {}`, `export async function ${name}() { return 1; }`, `export class ${this.name('L')} { async ${name}() {} }`, `export const ${name} = /a/;`,
      `export const ${name} = async () => {};`, `export class ${this.name('L')} { ${name} = /a/; }`, `export namespace ${this.name('N')} { export async function ${name}() {} }`])];
  }

  itselfOf() {
    const [own, name] = [this.name('self'), this.name('s')];
    if (/\.[mc]ts$/.test(this.file) || this.hasHoisted) return [];
    this.hasItself = true;
    const from = this.file.replace(/\.[cm]?tsx?$/, (it) => this.r.of([it, it.replace('ts', 'js').replace('jsx', 'js')]));
    return [`import * as ${own} from "./${from}";`, `export const ${name}: number = 1;`, `export const ${this.name('s')}: typeof ${own}.${name} = 1;`];
  }

  othersOf() {
    if (!this.before || this.hoisted.has(this.before)) return [];
    const name = this.name('o');
    return [this.r.of([`export * as ${name} from "./${this.before}";`, `import * as ${name} from "./${this.before}";\nexport type ${this.name('T')} = keyof typeof ${name};`, `export * from "./${this.before}";`])];
  }

  functionsOf() {
    const name = this.name('f');
    const type = this.type();
    return [`export function ${name}(a: ${type}): ${this.type()};`, `export function ${name}(a: ${type}, b: number): ${this.type()};`, `export function ${name}(a: ${type}, b?: number): any { return load(); }`];
  }

  plainOf() {
    return [`export interface ${this.declared('I', 'types')} { a: ${this.type()}; b?: ${this.type()}; c(it: ${this.type()}): void }`];
  }
}

module.exports = { FormWriter };
