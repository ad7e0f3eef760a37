export function f(): string { return 1; } export const a = (): string => { return 1; };
