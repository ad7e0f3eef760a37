export {}; export {} from "./x"; export const x = 1;
