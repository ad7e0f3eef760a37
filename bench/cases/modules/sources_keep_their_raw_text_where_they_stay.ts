export * from './a'; export * from '@x/y'; export * from "./\u0062";
