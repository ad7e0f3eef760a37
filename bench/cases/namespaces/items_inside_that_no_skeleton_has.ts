namespace N { export = x; import y = require("z"); export as namespace M; }
