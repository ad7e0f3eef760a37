export default function* (): Generator {}
