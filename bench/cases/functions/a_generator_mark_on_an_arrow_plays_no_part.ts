export const a = () => {};
