export default [(a) => a, f(), (b) => b];
