export const a = x as () => void;
