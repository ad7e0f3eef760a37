export default [1] satisfies T;
