export function f([b]: T) {}
