import x = require("y");
