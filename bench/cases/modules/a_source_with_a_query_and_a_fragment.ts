export * from "./a?v=1#top";
