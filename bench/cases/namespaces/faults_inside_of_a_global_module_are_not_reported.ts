declare global { export const a; }
