export default function* f(): Generator {}
