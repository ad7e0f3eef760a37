export const a = () => f(); export const b = async () => f(); export const c = [() => f()];
