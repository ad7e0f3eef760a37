export default function (@d a: string) {}
