export namespace N { export enum A { One } export class B { b: number = 1; } export function f(): void {} }
export namespace N { export enum C { Two } export class D { d: number = 1; } export function g(): A { return A.One; } }
export namespace N { export namespace Inner { export const a: number = 1; } }
export namespace N { export namespace Inner { export const b: number = 2; } export interface I { a: A; } export type T = D; }
export namespace M { export enum E { One } const hidden = 1; }
export namespace M { export enum E { Two = 1 } const hidden = "x"; }
export namespace M { export interface J { a: 1 } }
export namespace M { export interface J { b: 2 } }
export namespace O { export class K { k: number = 1; } export function h(): void {} }
export namespace O { export namespace K { export const inner: number = 1; } export namespace h { export const inner: number = 1; } }
export namespace P.Q { export enum R { One } }
export namespace P.Q { export enum R { Two = 1 } export class S {} }
export namespace P { export namespace Q { export interface S { s: 1 } } }
declare namespace U { enum V { One } class W {} }
declare namespace U { enum V { Two = 1 } interface W { w: 1 } }
export type FromU = U.V.Two | U.W;
namespace X { export enum Y { One } }
namespace X { export enum Y { Two = 1 } }
export { X as Z };
