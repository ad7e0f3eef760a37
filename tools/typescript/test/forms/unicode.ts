export const größe = "ü", 𝒳 = "😀"; /** Ä 😀 */ export const nach: string = größe;
