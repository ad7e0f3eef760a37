export default -1;
