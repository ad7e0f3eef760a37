import defaultName, { original as local, type Shape as Form } from "./names.ts";
export { local as renamed, defaultName };
export let form: Form;
