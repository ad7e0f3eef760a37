export declare const { a }: T;
