export { a, b as c, d as default };
