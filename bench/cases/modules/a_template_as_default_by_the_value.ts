export default `a${b}`;
