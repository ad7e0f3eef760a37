export * from "@x/y";
