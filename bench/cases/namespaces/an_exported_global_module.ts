export declare global {}
