export function View(props: { name: string }): JSX.Element {
  return <b>{props.name}</b>;
}
