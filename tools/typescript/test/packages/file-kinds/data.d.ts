export interface Data {
  text: string;
}
