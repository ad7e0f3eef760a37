export class Model {
  data = compute();
}
function compute() {
  return { a: 1 };
}
