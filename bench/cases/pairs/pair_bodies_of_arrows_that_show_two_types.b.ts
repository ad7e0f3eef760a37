export const f = () => "a";
