export const v = class {};
