import a = A; import b = A.B; export import c = A.B.C.D; import type d = A.B;
