export const größe = "ä", 名前 = "日本", face = "😀";
export function 面積(幅: number, 高さ = 1): number {
  return 幅 * 高さ;
}
export const 無型 = /* 😀 */ 計算();
function 計算() {
  return 1;
}
