export default async (): Promise<string> => f();
