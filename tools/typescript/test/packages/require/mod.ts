import fs = require("fs");
export const name: string = fs.name;
