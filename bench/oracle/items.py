"""Items and values that random modules, workspaces and cases share."""
from bench.oracle.trees import (
    MODULE, assign_to, call, class_stmt, declarator, exported, fn_stmt, form, ident, ident_name, lit, member, name, named, ref, run, stmt, thrown,
    unexported, var_stmt,
)

ONE, THROW, F, T = lit("1"), thrown(lit("1")), ref("f"), named("T")


def func(name, params=(), *stmts, **more):
    return exported(fn_stmt(name, params, *stmts, **more))


def const(pattern, value=None):
    return exported(var_stmt("Const", declarator(pattern, value)))


def let(name_, written=None, value=None):
    return exported(var_stmt("Let", declarator(name(name_, written) if written else name_, value)))


def public_class(*members, name="C", **more):
    return exported(class_stmt(name, *members, **more))


def unknown():
    """A call whose value shows nothing."""
    return call(ref("f"))


def if_(test, cons, alt=None):
    return stmt("If", test=test, cons=cons, alt=alt)


def put(name, value, obj="f", ctxt=MODULE, op="="):
    """`obj.name = value;`"""
    return unexported(run(assign_to(member(ref(obj, ctxt), name), value, op)))


def part_of(left, right):
    """The type `left.right`."""
    return {"TsTypeRef": form(type_name={"TsQualifiedName": form(left={"Ident": ident(left)}, right=ident_name(right))}, type_params=None)}
