export declare const down: 1;
