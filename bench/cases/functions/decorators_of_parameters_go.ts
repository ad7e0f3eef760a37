export function f(@d a: string, b: string) {}
