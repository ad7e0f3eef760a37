
export function unsaved() { return Math.random(); }
