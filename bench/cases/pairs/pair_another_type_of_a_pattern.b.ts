export function f([a]: U) {}
