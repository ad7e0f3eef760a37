export default Symbol.iterator;
