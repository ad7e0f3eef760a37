export = x;
