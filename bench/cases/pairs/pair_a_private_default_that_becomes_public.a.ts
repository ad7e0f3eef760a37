export default 1; export const x: number = 1;
