export const first = 1;
export default function standard(): void {}
