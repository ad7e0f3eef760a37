import "./effect.ts";
console.log("no exports");
export {};
