export import x = require("./y");
