namespace N { function f() {} f.a = 1; function g() {} } function h() {}
