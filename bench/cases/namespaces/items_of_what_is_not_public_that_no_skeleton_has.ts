namespace N { export = x; }
