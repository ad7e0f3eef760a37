export interface I { m({ b }: T): void; }
