export function f({ b, c }: T) {}
