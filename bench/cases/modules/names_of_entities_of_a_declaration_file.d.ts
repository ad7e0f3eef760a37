import a = A; import b = A.B;
