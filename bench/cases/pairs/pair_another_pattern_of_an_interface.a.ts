export interface I { m({ a }: T): void; }
