export const k = async () => 1;
