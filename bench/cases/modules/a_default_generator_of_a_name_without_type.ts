export default function* f() {}
