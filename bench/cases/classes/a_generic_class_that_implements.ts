export class C<T, U> extends B<T> implements I<T>, J { x: T; m(a: T): T { return a; } }
