export const a = (): string => f(); export const b = (): void => f(); export const c = async (): Promise<T> => f(); export const d = <T>(x: T): T => x;
