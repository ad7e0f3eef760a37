export function f() { return f() as void; } export const a = () => { return f() as void; };
