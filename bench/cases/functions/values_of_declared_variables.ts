export declare const a = (x) => f(), [b] = f();
