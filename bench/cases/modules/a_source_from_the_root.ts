export * from "/p/a";
