export const name: string;
export as namespace names;
