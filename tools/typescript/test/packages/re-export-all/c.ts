export const c = 1;
const d = 2;
