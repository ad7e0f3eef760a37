export const v = a?.(); export const w = [a?.(1)]; export const x = a?.() as T;
