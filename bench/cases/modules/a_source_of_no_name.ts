export * from "";
