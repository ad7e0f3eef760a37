export const a = [() => f(), g()]; export const b = [g(), () => f()]; export const c = (x) => [() => { throw 1; }, g()]; export const d = () => () => f();
