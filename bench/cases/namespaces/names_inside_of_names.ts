export namespace A.B { export namespace C.D { export const a = 1; namespace E { export const b = 1; } } export const c = 1; }
