export declare class C { #x; a: number; private m() {} private m() {} static {} ; private constructor(); private constructor() {} [k: string]: any; accessor #y; }
