#!/usr/bin/env node
import { makeShape as make } from "./shapes.ts";
// The value of the module.
export default { shape: make(), size: 1 }
