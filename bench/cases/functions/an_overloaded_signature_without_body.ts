export function o(x);
