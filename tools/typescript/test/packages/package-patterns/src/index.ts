export const index: string = "";
