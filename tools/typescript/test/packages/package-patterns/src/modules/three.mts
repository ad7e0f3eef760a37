export const three: 3 = 3;
