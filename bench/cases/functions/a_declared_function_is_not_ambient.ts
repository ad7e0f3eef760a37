export declare function f(a, b = 1);
