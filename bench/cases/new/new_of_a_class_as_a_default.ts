export const f = (a = new C()) => 1;
