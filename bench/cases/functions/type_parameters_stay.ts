export function f<T, U>(a: T): T { return a; }
