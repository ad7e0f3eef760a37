export default function greet(name = "you"): string {
  return text(name);
}
function text(name: string) {
  return name;
}
