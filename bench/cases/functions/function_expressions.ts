export const a = function () {}; export const b = async function own(x: string) { return; }; export const c = function (): string { return f(); }; export const d = function* (): Generator {};
