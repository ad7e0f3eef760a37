export const a = ;
export function b( {
}
