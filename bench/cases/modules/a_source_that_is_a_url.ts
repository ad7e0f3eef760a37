export * from "https://host.example/p/mod.ts";
