export function format(text: string): string {
  return text;
}
format.width = 80;
format.defaults = { indent: 2, style: "short" as string };
format.parse = (text: string): string => text;
