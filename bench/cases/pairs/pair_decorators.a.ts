export @d class C {}
