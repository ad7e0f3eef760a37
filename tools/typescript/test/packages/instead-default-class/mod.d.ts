declare class Named {
  #secret;
  name: string;
}
export default Named;
