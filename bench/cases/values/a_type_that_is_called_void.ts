export function f(): void { throw 1; } export function g(): any {} export function h(): void { throw 1; }
