export function f([a]: T) {}
