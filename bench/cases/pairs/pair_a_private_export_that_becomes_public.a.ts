export { a }; export const x: number = 1;
