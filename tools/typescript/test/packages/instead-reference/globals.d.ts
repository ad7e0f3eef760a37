export interface GlobalSettings {
  name: string;
}
