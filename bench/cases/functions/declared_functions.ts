export declare function f(a: string): void; declare function g();
