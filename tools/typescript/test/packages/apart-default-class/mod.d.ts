export default class {
  #secret;
  name: string;
}
