export default compute() + 1;
function compute(): number {
  return 1;
}
