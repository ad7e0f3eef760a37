export function request(): void {}
request.delete = (): void => {};
request.default = 1;
request.in = "a";
request.plain = 2;
export function only(): void {}
only.new = [1];
export const request_delete: string = "";
