export const o = { list: [(a = 1) => a, function (b: string) {}] };
