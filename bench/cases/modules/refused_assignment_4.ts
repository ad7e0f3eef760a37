export = f();
