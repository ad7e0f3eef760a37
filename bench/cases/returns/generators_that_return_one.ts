export function* f() { return 1; } export const e = async function* () { return 1; }; export const a = () => { return 1; }; export class C { *m() { return 1; } }
