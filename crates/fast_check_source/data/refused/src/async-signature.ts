export type A = { async m(): void };
