export * from ".a";
