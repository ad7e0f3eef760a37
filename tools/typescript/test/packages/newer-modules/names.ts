export const plain = "a" satisfies string;
const two = plain;
export { two as "two words" };
