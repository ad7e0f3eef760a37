export function paint(): void {}
paint.color = "red" as string;
const color = "blue" as string;
paint.other = color as string;
paint.again = [color];
