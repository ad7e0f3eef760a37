global { export const a; }
