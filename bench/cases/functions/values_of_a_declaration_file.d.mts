export const a = f(), { c } = f();
