interface GlobalSettings {
  name: string;
}
