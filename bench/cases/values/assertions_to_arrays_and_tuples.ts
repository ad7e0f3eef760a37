export const a = "x" as string[]; export const t = <[() => void]>"x";
