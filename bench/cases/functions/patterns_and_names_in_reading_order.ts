export const a; export const [b] = f(); export const c = f();
