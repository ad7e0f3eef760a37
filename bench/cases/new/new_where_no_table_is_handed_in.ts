export const v = new C();
