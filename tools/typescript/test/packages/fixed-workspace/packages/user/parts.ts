import * as kit from "@test/kit";

// Taken apart, one by the name of its value.
export const { core, make: again, hidden: ask } = kit;
export const [first] = kit.make([1]).value;
export const { second = 1 } = { second: 2 };
