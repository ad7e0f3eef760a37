export const a = 1;
export const b = "x";
export default 1;
