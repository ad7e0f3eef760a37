export class C { private m() { return 1; } #h() { return 1; } protected p() { return 1; } }
