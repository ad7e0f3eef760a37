export default `a`;
