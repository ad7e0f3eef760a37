import type x = require("y");
