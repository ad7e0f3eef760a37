// Conditional types as results behind `extends`, where no other conditional type stands.
export type Equal<X, Y> = (<T>() => T extends X ? 1 : 2) extends <T>() => T extends Y ? 1 : 2 ? true : false;
export type Other<X> = X extends (a: X) => X extends string ? 1 : 2 ? true : false;
export type Third<X> = X extends new (a: X) => X extends string ? 1 : 2 ? true : false;
export type Method<X> = X extends { a(): X extends string ? 1 : 2 } ? true : false;
export type Inferred<X> = X extends (infer U extends () => X extends string ? 1 : 2) ? U : false;
export type Predicate<X> = X extends (a: X) => a is X extends string ? X : never ? true : false;
