export const x: number = 1, y = f();
