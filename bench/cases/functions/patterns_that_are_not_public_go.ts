export const { a } = b; export const c = 1;
