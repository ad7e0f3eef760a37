export function it() {} it.a = 1; it.b = a;
