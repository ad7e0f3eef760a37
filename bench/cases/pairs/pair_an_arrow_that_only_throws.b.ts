export const f = () => { g(); };
