import x = require("y"); export import x = require("./y"); import type x = require("y"); export = x; export = f(); export as namespace N;
