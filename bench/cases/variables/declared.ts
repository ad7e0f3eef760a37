export declare const a = 1, b, c: string;
