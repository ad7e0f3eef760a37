'use strict';
// Pairs of versions, with the advice that a maintainer gives.
const childProcess = require('child_process');
const fs = require('fs');
const path = require('path');
const { test } = require('node:test');
const { run, same, holds, withFolder, cases, PACKAGES } = require('./support/helpers.js');

/** @typedef {import('./support/helpers.js').Case} Case */

const FUNCTION = 'export function area(width: number): number { return width; }\n';
const SHAPE = 'export interface Shape { width: number }\n';
const CLASS = 'export class Box { width: number = 1; area(): number { return this.width; } }\n';
const USERS_OF_BOX = 'export interface Holder { box: Box; take(box: Box): void }\nexport function open(box: Box): Box { return box; }\nexport type Boxes = Box[];\n';
const ZOD = 'import * as z from "zod";\n';
const KEYS = 'export const one: unique symbol = Symbol(), two: unique symbol = Symbol();\n';
const load = 'declare function load(): any;\n';

/** What is edited in one module: a title, the text before and after, and the advice. */
const EDITS = [
  // No public declaration differs for its users.
  ['a literal of a constant', 'export const version = "1.0.0";', 'export const version = "1.0.1";', 'patch'],
  ['a number of a constant', 'export const most = 10, least = -1;', 'export const most = 20, least = -2;', 'patch'],
  ['a renamed parameter', FUNCTION, 'export function area(size: number): number { return size; }\n', 'patch'],
  ['a union turned round', 'export type Mode = "a" | "b";', 'export type Mode = "b" | "a";', 'patch'],
  ['an array written otherwise', 'export const names: string[] = [];', 'export const names: Array<string> = [];', 'patch'],
  ['a type that is spelt out', 'export type Id = string; export const id: Id = "";', 'export type Id = string; export const id: string = "";', 'patch'],
  ['a type that has a name now', 'export function f(it: { a: 1 }): void {}', 'interface It { a: 1 }\nexport function f(it: It): void {}', 'patch'],
  ['one more private member', 'export class Box { private a: number = 1; }', 'export class Box { private a: number = 1; private b: number = 2; #c: number = 3; }', 'patch'],
  ['a private member of another type', 'export class A { private a: number = 1; #b: number = 2; }', 'export class A { private a: string = ""; }', 'patch'],
  ['members in another order', 'export interface A { a: 1; b: 2 }', 'export interface A { b: 2; a: 1 }', 'patch'],
  ['a body', FUNCTION, FUNCTION.replace('return width', 'return width * 2'), 'patch'],
  ['a function as a constant', 'export function f(a: string): void {}', 'export const f: (a: string) => void = load();', 'patch', load],
  ['an overload that says the same', 'export function f(a: string): void {}', 'export function f(a: string): void;\nexport function f(a: any): void {}', 'patch'],

  ['a member under a symbol', `${KEYS}export class A { [one]: number = 1; [Symbol.iterator](): any {} }`, `${KEYS}export class A { [Symbol.iterator](): any {} [one]: number = 1; }`, 'patch'],

  // What users have goes on.
  ['an optional parameter', FUNCTION, 'export function area(width: number, height?: number): number { return width; }\n', 'minor'],
  ['a parameter with a default', FUNCTION, 'export function area(width: number, height = 1): number { return width; }\n', 'minor'],
  ['a wider parameter', FUNCTION, 'export function area(width: number | string): number { return 1; }\n', 'minor'],
  ['a narrower result', 'export function f(): string | number { return 1; }', 'export function f(): number { return 1; }', 'minor'],
  ['an optional property', SHAPE, 'export interface Shape { width: number; name?: string }\n', 'minor'],
  ['a method of a class', CLASS, CLASS.replace('area()', 'more(): void {} area()'), 'minor'],
  ['a property of a class', CLASS, CLASS.replace('width: number = 1;', 'width: number = 1; height: number = 2;'), 'minor'],
  ['a static member', CLASS, CLASS.replace('area()', 'static of(): Box { return new Box(); } area()'), 'minor'],
  ['an optional parameter of a method', CLASS, CLASS.replace('area()', 'area(scale?: number)'), 'minor'],
  ['an overload', 'export function f(a: string): void {}', 'export function f(a: string): void;\nexport function f(a: number): void;\nexport function f(a: any): void {}', 'minor'],
  ['a type parameter with a default', 'export interface Box<T> { it: T }', 'export interface Box<T, U = string> { it: T; more?: U }', 'minor'],
  ['a wider constraint', 'export type Of<T extends string> = { it: T };', 'export type Of<T extends string | number> = { it: T };', 'minor'],
  ['a member of a value', 'export const it: { a: 1 } = load();', 'export const it: { a: 1; b: 2 } = load();', 'minor', load],
  ['a new name', FUNCTION, `${FUNCTION}export const more: number = 1;\n`, 'minor'],
  ['a type that is a value too', 'export interface A { a: 1 }', 'export class A { a: 1 = 1; }', 'minor'],
  ['a member of a namespace', 'export namespace N { export const a: number = 1; }', 'export namespace N { export const a: number = 1; export interface B { b: 1 } }', 'minor'],
  ['a method of a class that others mention', `${CLASS}${USERS_OF_BOX}`, `${CLASS.replace('area()', 'more(): void {} area()')}${USERS_OF_BOX}`, 'minor'],
  ['a function behind a type of this module', `${SHAPE}export function f(it: Shape): void {}`, 'export interface Shape { width: number; name?: string }\nexport function f(it: Shape): void {}', 'minor'],

  // Users may have to change their code.
  ['a name that is gone', `${FUNCTION}export const more: number = 1;\n`, FUNCTION, 'major'],
  ['a needed parameter', FUNCTION, 'export function area(width: number, height: number): number { return width; }\n', 'major'],
  ['a parameter that is gone', 'export function f(a: string, b?: number): void {}', 'export function f(a: string): void {}', 'major'],
  ['a parameter of a method that is gone', 'export class A { m(a: string, b?: number): void {} }', 'export class A { m(a: string): void {} }', 'major'],
  ['a narrower parameter', 'export function f(a: string | number): void {}', 'export function f(a: string): void {}', 'major'],
  ['a narrower parameter of a method', 'export class A { m(a: string | number): void {} }', 'export class A { m(a: string): void {} }', 'major'],
  ['a wider result', 'export function f(): number { return 1; }', 'export function f(): string | number { return 1; }', 'major'],
  ['another type of a property', SHAPE, SHAPE.replace('number', 'string'), 'major'],
  ['a needed property of an interface', SHAPE, 'export interface Shape { width: number; name: string }\n', 'major'],
  ['a property that is gone', 'export interface A { a: 1; b?: 2 }', 'export interface A { a: 1 }', 'minor'],
  ['a property of a class that is gone', 'export class A { a: number = 1; b: number = 2; }', 'export class A { a: number = 1; }', 'major'],
  ['a readonly property', 'export class A { a: number = 1; }', 'export class A { readonly a: number = 1; }', 'major'],
  ['a setter that is gone', 'export class A { get a(): number { return 1; } set a(it: number) {} }', 'export class A { get a(): number { return 1; } }', 'major'],
  ['another written literal', 'export const mode: "a" = "a";', 'export const mode: "b" = "b";', 'major'],
  ['a member of a union more', 'export type Mode = "a" | "b";', 'export type Mode = "a" | "b" | "c";', 'major'],
  ['a member of an enum that is gone', 'export enum Level { Low, High }', 'export enum Level { Low }', 'major'],
  ['a narrower constraint', 'export type Of<T extends string | number> = { it: T };', 'export type Of<T extends string> = { it: T };', 'major'],
  ['a needed type parameter', 'export interface Box<T> { it: T }', 'export interface Box<T, U> { it: T; more?: U }', 'major'],
  ['an abstract member', 'export abstract class A { abstract a(): void; }', 'export abstract class A { abstract a(): void; abstract b(): void; }', 'major'],
  ['a member under another symbol', `${KEYS}export class A { [one]: number = 1; }`, `${KEYS}export class A { [two]: number = 1; }`, 'major'],
  ['a class that cannot be made', 'export class A { constructor() {} }', 'export class A { private constructor() {} }', 'major'],
  ['a value that is only a type', 'export class A { a: 1 = 1; }', 'export interface A { a: 1 }', 'major'],
  ['a protected member of another type', 'export class A { protected a: number = 1; }', 'export class A { protected a: string = ""; }', 'major'],
  ['a promise', 'export function f(): number { return 1; }', 'export async function f(): Promise<number> { return 1; }', 'major'],
  ['another type of another package', `${ZOD}export type S = z.ZodString;`, `${ZOD}export type S = z.ZodNumber;`, 'major'],
  ['an optional property beside a type of another package', `${ZOD}export interface A { a: z.ZodType<string> }`, `${ZOD}export interface A { a: z.ZodType<string>; b?: z.ZodString }`, 'minor'],
  ['a module of Node by its other name', 'import { Stats } from "fs";\nexport type A = Stats;', 'import { Stats } from "node:fs";\nexport type A = Stats;', 'patch'],
  ['a type of Node', 'export function f(): Buffer { return null!; }', 'export function f(): string { return ""; }', 'major'],
  ['a member of a namespace that is gone', 'export namespace N { export const a: number = 1; export interface B { b: 1 } }', 'export namespace N { export const a: number = 1; }', 'major'],
  ['a default class with a method more', `export default ${CLASS.slice('export '.length)}`, `export default ${CLASS.slice('export '.length).replace('area()', 'more(): void {} area()')}`, 'minor'],
  ['a default class without a method', `export default ${CLASS.slice('export '.length).replace('area()', 'more(): void {} area()')}`, `export default ${CLASS.slice('export '.length)}`, 'major'],
  ['a default export of another type', 'const a: number = 1;\nexport default a;', 'const a: string = "";\nexport default a;', 'major'],
  // What assignability does not see.
  ['the first private member', CLASS, 'export class Box { private hidden: number = 1; width: number = 1; area(): number { return this.width; } }', 'major'],
  ['the first private name', 'export class A { m(): void {} }', 'export class A { m(): void {} #a: number = 1; }', 'major'],
  ['the first protected member', 'export class A { m(): void {} }', 'export class A { m(): void {} protected a: number = 1; }', 'major'],
  ['the first private parameter property', 'export class A { constructor(a: number) {} }', 'export class A { constructor(private a: number) {} }', 'major'],
  ['the first private member of a class in a namespace', 'export namespace N { export class A { m(): void {} } }', 'export namespace N { export class A { m(): void {} private a: number = 1; } }', 'major'],
  ['no private member any more', 'export class A { m(): void {} private a: number = 1; }', 'export class A { m(): void {} }', 'minor'],
  ['a class that is exported as a type', 'class A { a: number = 1; }\nexport { A };', 'class A { a: number = 1; }\nexport type { A };', 'major'],
  ['a class exported by keyword and then as a type', 'export class A { a: number = 1; }', 'class A { a: number = 1; }\nexport type { A };', 'major'],
  ['a constant that is exported as a type', 'const a: number = 1;\nexport { a };', 'const a: number = 1;\nexport type { a };', 'major'],
  ['an enum that is exported as a type', 'enum E { a }\nexport { E };', 'enum E { a }\nexport { type E };', 'major'],
  ['a type that is exported as a type', 'interface A { a: 1 }\nexport { A };', 'interface A { a: 1 }\nexport type { A };', 'patch'],
  ['a class that is exported as a value again', 'class A { a: number = 1; }\nexport type { A };', 'class A { a: number = 1; }\nexport { A };', 'minor'],
  ['a needed parameter of a constructor', 'export class A { constructor(a?: number) {} }', 'export class A { constructor(a: number) {} }', 'major'],
  ['a narrower parameter of a constructor', 'export class A { constructor(a: number | string) {} }', 'export class A { constructor(a: number) {} }', 'major'],
  ['a wider parameter of a constructor', 'export class A { constructor(a: number) {} }', 'export class A { constructor(a: number | string) {} }', 'minor'],
  ['an optional parameter of a constructor', 'export class A { constructor(a: number) {} }', 'export class A { constructor(a: number, b?: string) {} }', 'minor'],
  ['a constructor of a generic class', 'export class A<T> { constructor(a?: T) {} m(): T { return null!; } }', 'export class A<T> { constructor(a: T) {} m(): T { return null!; } }', 'major'],
  ['a `this` parameter', 'export function f(): void {}', 'export function f(this: Date): void {}', 'major'],
  ['a `this` parameter of a method', 'export class A { m(): void {} }', 'export class A { m(this: Date): void {} }', 'major'],
  ['a `this` parameter of a function type', 'export type F = () => void;', 'export type F = (this: Date) => void;', 'major'],
  ['a `this` parameter of a constant', 'export const f: () => void = load();', 'export const f: (this: Date) => void = load();', 'major', load],
  ['a `this` parameter of a callback', 'export interface A { on: () => void }', 'export interface A { on: (this: Date) => void }', 'major'],
  ['a method that returned `this`', 'export class A { m(): this { return this; } }', 'export class A { m(): A { return this; } }', 'major'],
  ['a method of an interface that returned `this`', 'export interface A { m(): this }', 'export interface A { m(): A }', 'major'],
  ['a method that returns `this`', 'export class A { m(): A { return this; } }', 'export class A { m(): this { return this; } }', 'minor'],
  ['a protected member that is public', 'export class A { protected a: number = 1; b: number = 2; protected c: number = 3; }', 'export class A { a: number = 1; b: number = 2; protected c: number = 3; }', 'major'],
  ['a protected method that is public', 'export class A { protected m(): void {} protected n(): void {} }', 'export class A { m(): void {} protected n(): void {} }', 'major'],
  ['members of an enum in another order', 'export enum E { a, b }', 'export enum E { b, a }', 'major'],
  ['another value of a member of an enum', 'export enum E { a = 1 }', 'export enum E { a = 2 }', 'major'],
  ['another kind of value of an enum', 'export enum E { a = 1 }', 'export enum E { a = "1" }', 'major'],
  ['another text of an enum', 'export enum E { a = "a" }', 'export enum E { a = "b" }', 'major'],
  ['a value of an enum that is written', 'export enum E { a, b }', 'export enum E { a = 0, b = 1 }', 'patch'],
  ['a const enum', 'export enum E { a = 1 }', 'export const enum E { a = 1 }', 'major'],
  ['an enum in a namespace', 'export namespace N { export enum E { a = 1 } }', 'export namespace N { export enum E { a = 2 } }', 'major'],
  ['a narrower setter', 'export class A { get a(): number { return 1; } set a(it: number | string) {} }', 'export class A { get a(): number { return 1; } set a(it: number) {} }', 'major'],
  ['a narrower setter without a getter', 'export class A { set a(it: number | string) {} }', 'export class A { set a(it: number) {} }', 'major'],
  ['a wider setter', 'export class A { get a(): number { return 1; } set a(it: number) {} }', 'export class A { get a(): number { return 1; } set a(it: number | string) {} }', 'minor'],
  ['a default of a type parameter that is gone', 'export interface A<T = 1> { it: T }', 'export interface A<T> { it: T }', 'major'],
  ['a default of a type parameter of an alias', 'export type A<T = 1> = { it: T };', 'export type A<T> = { it: T };', 'major'],
  ['a default of a type parameter of a class', 'export class A<T = 1> { it: T = null!; }', 'export class A<T> { it: T = null!; }', 'major'],
  ['a default of a type parameter', 'export interface A<T> { it: T }', 'export interface A<T = 1> { it: T }', 'minor'],
  ['a variance', 'export interface A<T> { it(it: T): T }', 'export interface A<in out T> { it(it: T): T }', 'major'],
  ['a variance of an alias', 'export type A<T> = { it: T };', 'export type A<out T> = { it: T };', 'major'],
  ['`any` of a parameter', 'export function f(it: any): void {}', 'export function f(it: number): void {}', 'major'],
  ['`any` of a result', 'export function f(): any {}', 'export function f(): number { return 1; }', 'major'],
  ['`any` of a property', 'export interface A { a: any }', 'export interface A { a: number }', 'major'],
  ['`any` of a constant', 'export const a: any = load();', 'export const a: number = load();', 'major', load],
  ['`any` of a parameter of a method', 'export class A { m(it: any): void {} }', 'export class A { m(it: string): void {} }', 'major'],
  ['`any` in a list', 'export const a: any[] = [];', 'export const a: number[] = [];', 'major'],
  ['`any` in a callback', 'export function f(done: (it: any) => void): void {}', 'export function f(done: (it: number) => void): void {}', 'major'],
  ['a type that is `any`', 'export interface A { a: number }', 'export interface A { a: any }', 'minor'],
  ['an index signature that is gone', 'export const it: Record<string, number> = load();', 'export const it: { a: number } = load();', 'major', load],
  ['an index signature of an interface that is gone', 'export interface A { [key: string]: number; a: number }', 'export interface A { a: number }', 'major'],
  ['an index signature of a result that is gone', 'export interface A { it: { [key: string]: number } }', 'export interface A { it: { a: number } }', 'major'],
  ['an overload before another one', 'export function f(a: number): number;\nexport function f(a: any): any {}', 'export function f(a: 1): string;\nexport function f(a: number): number;\nexport function f(a: any): any {}', 'major'],
  ['an overload of a method before another one', 'export interface A { m(a: number): number }', 'export interface A { m(a: 1): string; m(a: number): number }', 'major'],
  ['an overload of a method after another one', 'export class A { m(a: number): number;\nm(a: any): any {} }', 'export class A { m(a: number): number;\nm(a: string): string;\nm(a: any): any {} }', 'minor'],
  ['an assertion', 'export function f(it: unknown): asserts it is string {}', 'export function f(it: unknown): void {}', 'major'],
  ['an assertion without a type', 'export function f(it: unknown): asserts it {}', 'export function f(it: unknown): void {}', 'major'],
  ['a guard', 'export function f(it: unknown): it is string { return true; }', 'export function f(it: unknown): boolean { return true; }', 'major'],
  ['the type of a literal', 'export class A { readonly k = "a"; }', 'export class A { readonly k: string = "a"; }', 'major'],
  ['the type of a static literal', 'export class A { static readonly k = 1; }', 'export class A { static readonly k: number = 1; }', 'major'],
  ['an abstract method with a body', 'export abstract class A { abstract a(): void; abstract b(): void; }', 'export abstract class A { a(): void {} abstract b(): void; }', 'minor'],
  ['a generic class', 'export class Box<T> { it: T; constructor(it: T) { this.it = it; } }', 'export class Box<T> { it: T[]; constructor(it: T) { this.it = [it]; } }', 'major'],
];

const MODULES = { exports: '{ "name": "it", "exports": "./mod.ts", "dependencies": { "zod": "^3" } }' };
const zod = (/** @type {string} */ range) => `{ "name": "it", "exports": "./mod.ts", "dependencies": { "zod": "${range}" } }`;
const S = `${ZOD}export type S = z.ZodString;\n`;
const adding = (/** @type {string} */ member) => ({ 'mod.ts': 'import "./more.ts";\nexport interface Opts { a: 1 }\n', 'more.ts': `declare module "./mod.ts" { interface Opts { ${member} } }\nexport {};\n` });

/** @typedef {[title: string, before: Record<string, string>, after: Record<string, string>, advice: string, said: string]} Versions */

/** @type {Versions[]} */
const OTHERS = [
  ['an addition of a module that is imported for its effects', adding('b: 1'), adding('b: 2'), 'unknown', 'more.ts differs'],
  ['the same addition', adding('b: 1'), adding('b: 1'), 'patch', 'no public declaration differs'],
  ['another range of a package behind a type', { 'mod.ts': S, 'package.json': zod('^3') }, { 'mod.ts': S, 'package.json': zod('^4') }, 'unknown', 'zod is taken as ^4, and was taken as ^3'],
  ['another range of a package that no type mentions', { 'mod.ts': FUNCTION, 'package.json': zod('^3') }, { 'mod.ts': FUNCTION, 'package.json': zod('^4') }, 'patch', 'no public declaration differs'],
  ['another range in the text of an import', { 'mod.ts': S.replace('"zod"', '"npm:zod@3"') }, { 'mod.ts': S.replace('"zod"', '"npm:zod@4"') }, 'unknown', 'zod is taken as 4'],
  ['a script', { 'mod.ts': 'interface GlobalThing { a: 1 }\n' }, { 'mod.ts': 'interface GlobalThing { a: 2 }\n' }, 'unknown', 'mod.ts differs'],
  ['a module that is not there', { 'mod.ts': 'import { A } from "./lib";\nexport type B = A;\n' }, { 'mod.ts': 'import { A } from "./lib";\nexport type B = A;\n' }, 'unknown', 'mod.ts needs ./lib, which is not there'],
  ['a module whose names are exported, and that is not there', { 'mod.ts': 'export * from "./lib";\n' }, { 'mod.ts': 'export * from "./lib";\n' }, 'preview', 'a package has messages, and no advice comes'],
  ['a reference to types', { 'mod.ts': FUNCTION }, { 'mod.ts': `/// <reference types="node" />\n${FUNCTION}` }, 'unknown', 'refers to types "node" now'],
  ['public JSON', { 'mod.ts': 'export { default as it } from "./it.json";\n', 'it.json': '{"a": 1}' }, { 'mod.ts': 'export { default as it } from "./it.json";\n', 'it.json': '{"a": ""}' }, 'unknown', 'it.json differs'],
  ['an entry point of JavaScript', { 'mod.js': '', 'package.json': '{ "exports": "./mod.js" }' }, { 'mod.ts': FUNCTION }, 'unknown', 'the entry point mod.js is JavaScript without types'],
  ['a major change beside what is not known', { 'mod.ts': S, 'package.json': zod('^3') }, { 'mod.ts': `${ZOD}export type S = z.ZodNumber;\n`, 'package.json': zod('^4') }, 'major', 'zod is taken as ^4'],
  ['a module that was moved', { 'mod.ts': 'export * from "./a.ts";\n', 'a.ts': SHAPE }, { 'mod.ts': 'export * from "./b.ts";\n', 'b.ts': SHAPE }, 'patch', ''],
  ['an import that means another type', { 'mod.ts': 'import type { B as A } from "./a.ts";\nexport type T = A;\n', 'a.ts': 'export interface B { b: 1 }\n' },
    { 'mod.ts': 'import type { C as A } from "./a.ts";\nexport type T = A;\n', 'a.ts': 'export interface C { c: 1 }\n' }, 'major', 'it leads to another declaration'],
  ['a type of another module', { 'mod.ts': 'export { f } from "./f.ts";\n', 'f.ts': 'import type { A } from "./a.ts";\nexport function f(it: A): void {}\n', 'a.ts': 'export interface A { a: 1 }\n' },
    { 'mod.ts': 'export { f } from "./f.ts";\n', 'f.ts': 'import type { A } from "./a.ts";\nexport function f(it: A): void {}\n', 'a.ts': 'export interface A { a: 1; b?: 2 }\n' }, 'minor', 'by A (a.ts)'],
];

const versioned = (/** @type {string} */ version, /** @type {string} */ text) => ({ 'mod.ts': text, 'package.json': `{ "name": "it", "version": "${version}", "exports": "./mod.ts" }` });

// Versions with their numbers, and what is said of these.
/** @type {[old: string, now: string, advice: 'major' | 'minor', said: string][]} */
const VERSIONS = [
  ['1.0.4', '1.1.0', 'major', '1.1.0 is too low: 2.0.0'],
  ['1.0.4', '2.0.0', 'major', '2.0.0 is high enough'],
  ['1.0.4', '1.0.4', 'major', 'the next version is 2.0.0 or higher'],
  ['0.3.1', '0.3.2', 'major', '0.3.2 is too low: 0.4.0'],
  ['0.0.3', '0.0.4', 'major', '0.0.4 is high enough'],
  ['1.0.4', '1.0.5', 'minor', '1.0.5 is too low: 1.1.0'],
  ['0.3.1', '0.3.2', 'minor', '0.3.2 is high enough'],
  ['1.0.0-beta.1', '1.0.0-beta.2', 'major', '1.0.0-beta.2 is high enough'],
];
const CHANGED = { major: SHAPE.replace('number', 'string'), minor: 'export interface Shape { width: number; name?: string }\n' };

function write(/** @type {string} */ folder, /** @type {Record<string, string>} */ files) {
  const all = { 'package.json': MODULES.exports, ...files };
  for (const [name, text] of Object.entries(all)) {
    fs.mkdirSync(path.dirname(path.join(folder, name)), { recursive: true });
    fs.writeFileSync(path.join(folder, name), text);
  }
}

const compared = async (/** @type {Record<string, string>} */ old, /** @type {Record<string, string>} */ now) => {
  const found = { status: 0, out: '', err: '' };
  await withFolder(async (folder) => {
    write(path.join(folder, 'old'), old);
    write(path.join(folder, 'now'), now);
    Object.assign(found, await run(['diff', path.join(folder, 'old'), path.join(folder, 'now')]));
  });
  return found;
};
const adviceOf = (/** @type {{ out: string, err: string }} */ { out, err }) => {
  const [, advice] = /^(major|minor|patch|unknown|preview): /m.exec(out) || [];
  holds(advice, `there is an advice in\n${out}${err}`);
  return advice;
};
/** @returns {Case} */
const edit = (/** @type {string[]} */ [title, before, after, wanted, head = '']) => [`diff: ${title}`, async () => {
  const found = await compared({ 'mod.ts': head + before }, { 'mod.ts': head + after });
  same(adviceOf({ ...found, out: found.out.replace(/^ .*\n/gm, '') }), wanted, `the advice in\n${found.out}${found.err}\nwhich`);
  holds(!found.out.includes('theorem'), 'no theorem is cited');
}];
/** @returns {Case} */
const other = (/** @type {Versions} */ [title, before, after, wanted, said]) => [`diff: ${title}`, async () => {
  const found = await compared(before, after);
  same(adviceOf({ ...found, out: found.out.replace(/^ .*\n/gm, '') }), wanted, `the advice in\n${found.out}${found.err}\nwhich`);
  holds(found.out.includes(said), `'${said}' stands in\n${found.out}`);
  if (['preview', 'unknown'].includes(wanted)) same(found.status, 2, 'the status');
}];
/** @returns {Case} */
const version = (/** @type {[old: string, now: string, advice: 'major' | 'minor', said: string]} */ [old, now, advice, said]) => [`diff: ${advice} from ${old} to ${now}`, async () => {
  const { out, err } = await compared(versioned(old, SHAPE), versioned(now, CHANGED[advice]));
  holds(out.includes(`${said}\n`), `'${said}' stands in\n${out}${err}`);
}];

/**
 * What leads to a changed declaration, and to a public one.
 *
 * @returns {Case[]}
 */
function reasons() {
  const CLASS_A = 'export class A { a: number = 1; }\n';
  const USERS = 'export enum E { A }\nexport interface I { A: 1; of(A: string): void }\nexport type T<A> = A[];\n';
  return [
    ['diff: names of other scopes lead to no declaration', async () => {
      const { out } = await compared({ 'mod.ts': USERS + CLASS_A }, { 'mod.ts': USERS + CLASS_A.replace('number', 'string | number') });
      same((out.match(/^changed .*/gm) || []).join(), 'changed A (mod.ts)', 'what changed');
    }],
    ['diff names the files of a revision by the revision', () => withFolder(async (folder) => {
      const git = (/** @type {string[]} */ ...words) => childProcess.execFileSync('git', ['-c', 'user.name=a', '-c', 'user.email=a@host.example', ...words], { cwd: folder, stdio: 'ignore' });
      write(folder, { 'mod.ts': 'export const a = f();\n' });
      git('init', '-q');
      git('add', '-A');
      git('commit', '-qm', 'first');
      const { err } = await run(['diff', 'HEAD', '.'], { cwd: folder });
      holds(err.includes('--> HEAD:mod.ts:1:14\n') && err.includes('--> mod.ts:1:14\n'), err);
    })],
    ['report: a default export does not lead through a re-export of all', () => withFolder(async (folder) => {
      write(folder, {
        'package.json': '{ "name": "it", "exports": { ".": "./mod.ts", "./a": "./a.ts" } }', 'mod.ts': 'export * from "./a.ts";\n', 'a.ts': 'export default class D { a: 1 = 1; }\n',
      });
      const page = path.join(folder, 'page.html');
      await run(['report', folder, page]);
      const text = fs.readFileSync(page, 'utf8').replace(/&#39;/g, "'");
      holds(text.includes("a.ts exports 'default'") && !text.includes("mod.ts exports 'default'"), (text.match(/<ul class="ways">.*/g) || []).join('\n'));
    })],
  ];
}

cases([...EDITS.map(edit), ...OTHERS.map(other), ...VERSIONS.map(version), ...reasons()]);

// ---- edits of the stored packages

// A list of arguments that is too long for a line.
const LONG = '1000000, '.repeat(10);
const HIDDEN = [
  ['hidden-code', 'helper.ts', 'return a == b;', 'let c = a;\n  return c === b;'],
  ['hidden-code', 'model.ts', 'return { a: 1 };', 'return { a: 2, b: "x" };'],
  ['hidden-code', 'mod.ts', 'helper.length', 'helper.length + 1'],
  ['hidden-code', 'mod.ts', 'new Map<string, Model>()', 'new Map<string, Model>([["a", new Model()]])'],
  ['classes', 'mod.ts', 'private cache: Map<string, number> = new Map();', 'private cache: Set<string> = new Set();'],
  ['classes', 'mod.ts', 'return force;', 'return !force;'],
  ['classes', 'mod.ts', '#radius = 1;', '#radius = 2;\n  #more = "a";'],
  ['functions', 'mod.ts', 'return plain("a");', '// another\n  return plain("b", 2);'],
  ['variables', 'mod.ts', 'const hidden = read();', 'const hidden = [read(), 1];'],
  ['re-exports', 'shapes.ts', 'export function unused(): void {}', 'export function unused(a: number): string {\n  return "";\n}'],
  ['namespaces', 'mod.ts', 'const hidden = 2;', 'const hidden = 3, more = hidden;'],
  ['workspace', 'core/mod.ts', 'return 1;', 'return 2;'],
  ['comments', 'mod.ts', '// A note that goes.', '// Another note, which goes too.'],
  ['overloads', 'mod.ts', 'return strict ? null : {};', 'return null;'],
  ['hidden-widths', 'mod.ts', 'a: number = sum(1)', `a: number = sum(${LONG})`],
  ['hidden-widths', 'mod.ts', 'function short(point: { x: number } = { x: 1 }', `function short(point: { x: number } = { x: sum(${LONG}) }`],
  ['hidden-widths', 'mod.ts', 'const arrow = (point: { x: number } = { x: 1 }', `const arrow = (point: { x: number } = { x: sum(${LONG}) }`],
  ['hidden-widths', 'mod.ts', 'constructor(private point: { x: number } = { x: 1 }', `constructor(private point: { x: number } = { x: sum(${LONG}) }`],
  ['hidden-widths', 'mod.ts', 'move(point: { x: number } = { x: 1 }', `move(point: { x: number } = { x: sum(${LONG}) }`],
];
/** @type {[name: string, file: string, old: string, now: string, said: string[]][]} */
const SHOWN = [
  ['variables', 'mod.ts', 'text = "a"', 'text = "b"', ['changed text (mod.ts)\n', '\npatch: ']],
  ['re-exports', 'shapes.ts', 'x: number;', 'x: string;', ['changed Point (shapes.ts)\n', 'changed areaOf (shapes.ts)\n  by Point (shapes.ts), as above\n', '\nmajor: ']],
  ['re-export-all', 'mod.ts', 'export * from "./b.ts";\n', '', ['removed b (b.ts)\n', 'major: ']],
  ['variables', 'mod.ts', 'const hidden', 'export const added = 1;\nconst hidden', ['added added (mod.ts)\nminor: ']],
];

/** A copy of a package with an edit. */
function edited(/** @type {string} */ folder, /** @type {string} */ name, /** @type {string} */ file, /** @type {string} */ old, /** @type {string} */ now) {
  fs.cpSync(path.join(PACKAGES, name), folder, { recursive: true });
  const target = path.join(folder, file);
  const text = fs.readFileSync(target, 'utf8');
  holds(text.split(old).length === 2, `'${old}' stands once in ${name}/${file}`);
  fs.writeFileSync(target, text.replace(old, () => now));
}

for (const [name, file, old, now] of HIDDEN) {
  test(`hidden edit in ${name}/${file}: ${now.split('\n')[0]}`, () => withFolder(async (folder) => {
    edited(folder, name, file, old, now);
    const before = await run(['skeleton', path.join(PACKAGES, name)]);
    same((await run(['skeleton', folder])).out, before.out, 'the skeleton');
    const { status, out, err } = await run(['diff', path.join(PACKAGES, name), folder]);
    same(`${status}${out.split(':')[0]}${err}`, '0patch', 'diff');
  }));
}
for (const [name, file, old, now, wanted] of SHOWN) {
  test(`public edit in ${name}/${file}`, () => withFolder(async (folder) => {
    edited(folder, name, file, old, now);
    const { status, out } = await run(['diff', path.join(PACKAGES, name), folder]);
    same(status, 1, 'the status');
    for (const each of wanted) holds(out.includes(each), `'${each}' is reported, and this was: ${out}`);
  }));
}

test('diff with a revision of the repository', () => withFolder(async (folder) => {
  const git = (/** @type {string[]} */ ...words) => childProcess.execFileSync('git', ['-c', 'user.name=a', '-c', 'user.email=a@host.example', ...words], { cwd: folder, stdio: 'ignore' });
  fs.mkdirSync(path.join(folder, 'packages'));
  const dir = path.join(folder, 'packages/a');
  fs.cpSync(path.join(PACKAGES, 'variables'), dir, { recursive: true });
  git('init', '-q');
  git('add', '-A');
  git('commit', '-qm', 'first');
  fs.appendFileSync(path.join(dir, 'mod.ts'), 'export const added = 1;\n');
  const { status, out } = await run(['diff', 'HEAD', '.'], { cwd: dir });
  same(`${status} ${out.split(':')[0]}`, '1 added added (mod.ts)\nminor');
  const json = await run(['diff', '--json', 'HEAD', '.'], { cwd: dir });
  same(JSON.parse(json.out.trim().split('\n').slice(-1)[0]).advice, 'minor');
  const markdown = await run(['diff', '--markdown', 'HEAD', 'HEAD'], { cwd: dir });
  same(markdown.status, 2, 'the status where neither is a folder');
  holds((await run(['diff', '--markdown', '.', 'HEAD'], { cwd: dir })).out.startsWith('**major**: '), 'the other way round a name is gone');
  same((await run(['diff', 'nowhere', '.'], { cwd: dir })).status, 2, 'the status of a revision that is not there');
}));
