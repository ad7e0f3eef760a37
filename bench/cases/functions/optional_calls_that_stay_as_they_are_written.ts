export declare const v = a?.(1), w = o.f?.(...a)?.b;
