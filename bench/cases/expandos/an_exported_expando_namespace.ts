export function it() {} it.skip = () => {}; it.prop = "value";
