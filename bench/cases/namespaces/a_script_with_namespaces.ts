namespace N { export const a = 1; } namespace M { export const b = 1; } f();
