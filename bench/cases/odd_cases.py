"""Cases whose trees no text is read as: patterns and expressions that are none, what only swc's parser takes, and names of two scopes."""
from bench.cases.case import Case
from bench.cases.known_tables import OTHER, known
from bench.oracle.items import F, ONE, T, const, func, if_, let, public_class, put, unknown
from bench.oracle.module_trees import ambient_module, default_export, export, global_module, import_, default_import, namespace, star_export, star_import
from bench.oracle.trees import (
    MODULE, angle, array, array_pattern, arrow, as_, as_const, assign, assigned, binary, block, call, class_, computed, cond, declarator, decorated, default,
    expr, exported, fn_stmt, form, free, freeze, function, function_type, getter, hash_member, ident, index, instantiation, intersection, key_literal, lit,
    member, method, name, new, non_null, object_, object_pattern, optional_member, optional_type, pair, paren, ref, rest, rest_type, returned, run,
    satisfies, setter, shorthand, spread, spread_of, stmt, template, thrown, tpl, tuple_type, type_operator, unary, unexported, update, var_stmt, variables,
)


def functions_of(*lists):
    """A function for each list of parameters."""
    return [func(f"f{place}", params) for place, params in enumerate(lists)]


def constants(values):
    return [const(f"v{place}", value) for place, value in enumerate(values)]


def patterns():
    a, b, inner = name("a"), ref("b"), name("b", T)
    invalid, expression = {"Invalid": form()}, {"Expr": member(ref("a"), "b")}
    yield Case("overloads_hide_what_the_parameters_are",
               [func("o", [name("x", "string")], ret="void", body=False),
                func("o", [array_pattern(a), object_pattern("b"), default(name("c"), unknown()), invalid, decorated(name("d")), rest(array_pattern(name("e")))],
                     returned(unknown()))],
               "export function o(x: string): void; "
               "export function o(param0?: any, param1?: any, param2?: any, param3?: any, param4?: any, ...param5: any): any { return {} as never; }",
               implementations=(1,))
    yield Case("parameters_that_are_no_parameters",
               functions_of([default(rest(a, T), b)], [default(default(a, b), b)], [default(invalid, b)], [default(expression, b)], [invalid], [expression], [inner]),
               ["destructuring ...a: T = b", "destructuring a = b = b", "destructuring @ = b", "destructuring a.b = b", "destructuring @", "destructuring a.b"])
    shown = ["...{}: T"] * 3 + ["...@: T"]
    yield Case("rest_parameters_of_other_patterns",
               functions_of([rest(rest(a), T)], [rest(default(a, unknown()), T)], [rest(expression, T)], [rest(invalid, T)]),
               " ".join(f"export function f{place}({params}): void {{}}" for place, params in enumerate(shown)))
    of = [array_pattern(a), object_pattern("a", "c"), rest(a), default(a, ONE), invalid, expression, array_pattern(a, written=T)]
    yield Case("variables_that_are_patterns", [exported(var_stmt("Const", *[declarator(pattern, b) for pattern in of]))],
               ["destructuring [a]", "destructuring { a, c }", "destructuring ...a", "destructuring a = 1", "destructuring @", "destructuring a.b",
                "destructuring [a]: T"])


def values():
    as_t = lambda value: as_(value, T)
    a, b = ref("a"), ref("b")
    typed_freeze = freeze(a)
    typed_freeze["Call"]["type_args"] = instantiation("string")
    values = [
        (typed_freeze, "Object.freeze<string>(a)"), (expr("This"), "this"), (a, "a"),
        (array(lit('"x"'), lit("true"), lit("null"), lit("1"), lit("1n"), lit("/x/g")), '["x", true, null, 1, 1n, /x/g]'),
        (array(None, a, spread(b), array()), "[, a, ...b, []]"), (object_(), "{}"),
        (object_(shorthand("a"), pair("b", ONE), pair(key_literal('"c"'), ONE), pair(key_literal("1"), a), pair(key_literal("2n"), b)),
            '{ a, b: 1, "c": 1, 1: a, 2n: b }'),
        (object_(pair(computed(as_t(a)), as_t(b)), spread_of(as_t(a)), assigned("c", as_t(b))),
            "{ [({} as never) as T]: ({} as never) as T, ...({} as never) as T, c = ({} as never) as T }"),
        (unary("!", a), "!a"), (unary("typeof", as_t(a)), "typeof ({} as never) as T"), (update("++", a), "a++"),
        (update("--", as_t(a), prefix=True), "--({} as never) as T"),
        (binary(a, "+", b), "a + b"), (binary(as_t(a), "??", as_t(b)), "({} as never) as T ?? ({} as never) as T"),
        (expr("Await", arg=as_t(a)), "await ({} as never) as T"),
        (cond(as_t(a), as_t(a), as_t(b)), "({} as never) as T ? ({} as never) as T : ({} as never) as T"),
        (member(member(a, "b"), "c"), "a.b.c"), (index(member(a, "b"), index(b, as_t(ONE))), "a.b[b[({} as never) as T]]"), (paren(a), "(a)"),
        (non_null(as_t(a)), "({} as never) as T!"),
        (as_const(array(as_t(a))), "[({} as never) as T] as const"), (as_const(lit('"x"')), '"x" as const'),
        (satisfies(object_(pair("a", as_t(ONE))), T), "{ a: ({} as never) as T } satisfies T"),
        (as_(unknown(), function_type("void")), "({} as never) as () => void"), (angle(function_type("void"), unknown()), "<() => void>({} as never)"),
        (array(angle(T, unknown())), "[<T>({} as never)]"), (array(template("x", as_t(a), "y", b, "z")), "[`x${({} as never) as T}y${b}z`]"),
        (freeze(object_(pair("a", as_t(a)))), "Object.freeze({ a: ({} as never) as T })"),
        (freeze(arrow([], ONE)), "Object.freeze((): number => ({} as never))"), (array(freeze(freeze(a))), "[Object.freeze(Object.freeze(a))]")]
    yield Case("values_that_stay", constants([value for value, _ in values]),
               " ".join(f"export const v{place} = {text};" for place, (_, text) in enumerate(values)))
    yield Case("values_that_stay_under_let", [exported(var_stmt("Let", declarator("a", array(ONE)), declarator("b", binary(a, "+", as_t(b)))))],
               "export let a = [1], b = a + ({} as never) as T;")
    a, f = ref("a"), unknown()
    optional = optional_member(a, "b")
    forms = [
        assign("a", ONE), expr("Seq", exprs=[ONE, a]), f, new(ref("C")), new(free("Map"), ONE),
        expr("TaggedTpl", ctxt=0, tag=a, type_params=None, tpl=tpl("x")),
        {"Class": {"ident": None, "class": class_()}}, expr("Yield", arg=a, delegate=False), expr("MetaProp", kind="import.meta"),
        expr("SuperProp", prop={"Ident": form(sym="b")}),
        expr("TsInstantiation", expr=a, type_args=instantiation("string")), {"PrivateName": form(name="a")}, optional, hash_member(a, "b"),
        {"Invalid": form()}, lit("<text"),
        *[expr(kind, raw="<jsx/>") for kind in ("JSXMember", "JSXNamespacedName", "JSXEmpty", "JSXElement", "JSXFragment")],
        object_(getter("g", returned(ONE))), object_(setter("s", name("x"))), object_(method("m", ret="void")), call(free("Symbol"), ONE),
        call(member(free("Symbol"), "iterator"))]
    yield Case("values_that_do_not_stay", constants(forms), [f"type v{place}" for place in range(len(forms))])
    text = lit('"x"')
    yield Case("values_that_show_nothing_under_let", [exported(var_stmt("Let", declarator("s", call(ref("Symbol"), text)), declarator("t", lit("<text"))))],
               ["type s", "type t"])
    to_function = function_type("void")
    types = {"t": tuple_type(optional_type(to_function)), "s": tuple_type(rest_type(to_function)), "i": intersection("string", to_function),
             "k": type_operator("KeyOf", to_function)}
    yield Case("assertions_to_types_of_functions", [const(each, as_(text, written)) for each, written in types.items()],
               "export const t = ({} as never) as [() => void?]; export const s = ({} as never) as [...() => void]; "
               "export const i = ({} as never) as string & () => void; export const k = ({} as never) as keyof () => void;")


def satisfied():
    """What the oldest compiler that reads the cases does not read."""
    value = paren(satisfies(lit('"x"'), "string"))
    yield Case("satisfies_under_let", [let("a", value=value)], "export let a: string = {} as never;")
    yield Case("satisfies_under_const", [const("a", value)], 'export const a: "x" = {} as never;')


def statements():
    one, empty = returned(ONE), stmt("Empty")
    each = {"VarDecl": variables("Const", declarator("x"))}
    inner = function([], one)
    others = [
        run(inner), run(call(paren(inner))), var_stmt("Const", declarator("x", inner)), fn_stmt("g", [], one),
        {"Decl": {"Class": {"ident": ident("C"), "declare": False, "class": class_(inner)}}}, thrown(inner),
        if_(inner, empty), stmt("While", test=inner, body=empty), stmt("Switch", discriminant=inner, cases=[form(test=inner, cons=[])]),
        stmt("ForOf", is_await=False, left=each, right=inner, body=empty),
        run(arrow([], block(one))), run(object_(method("m", one))), run(object_(getter("g", one))), empty, stmt("Debugger"), stmt("Break", label=None),
        stmt("Continue", label=None),
        {"Decl": {"Using": form(is_await=False, decls=[declarator("x", inner)])}}, namespace("N", unexported(one))]
    count = range(len(others))
    yield Case("statements_that_no_return_is_found_in", constants([function([], other) for other in others]),
               [f"return definitely v{place}" for place in count])
    yield Case("declared_functions_enter_no_others", [func(f"v{place}", [], other) for place, other in enumerate(others)],
               " ".join(f"export function v{place}(): void {{}}" for place in count))


def superclasses():
    b = ref("B")
    calls = [(call(F), "f()"), (member(call(F), "B"), "f().B"), (index(b, lit('"k"')), 'B["k"]'), (index(b, ONE), "B[1]"), (paren(b), "(B)"),
             (index(b, binary(ref("k"), "+", ref("l"))), "B[k + l]"), (as_(b, "any"), "B as any"), (new(b), "new B()"), (lit("null"), "null"),
             (expr("This"), "this"), (member(expr("This"), "B"), "this.B"), ({"Class": {"ident": None, "class": class_()}}, "class {}"),
             (arrow([], ONE), "() => 1"), (template("B"), "`B`")]
    yield Case("superclasses_that_do_not_stay", [public_class(super_class=value, name=f"C{at}") for at, (value, _) in enumerate(calls)],
               [f"superclass {text}" for _, text in calls])


def modules():
    phases = [import_("./m.wasm", default_import("m"), phase="source"), import_("./n", star_import("n"), phase="defer")]
    yield Case("phases_of_imports", phases, 'import source m from "./m.wasm"; import defer * as n from "./n";',
               more={"sources": ['./m.wasm at "./m.wasm"', './n at "./n"']})
    value = [export(default_export("v"), src="./x"), export(default_export("w"), "a", src="@x/y"), export(default_export("w"), star_export("n"), src="@x/y")]
    yield Case("default_exports_of_other_modules", value, 'export v from "./x.ts"; export w, { a } from "@x/y"; export w, * as n from "@x/y";',
               more={"resolved": {"./x": "file:///p/x.ts"}, "sources": ['export ./x.ts at "./x"'] + ['export @x/y at "@x/y"'] * 2})
    yield Case("some_default_exports_of_other_modules", value, 'export { a } from "@x/y"; export w from "@x/y";', private=(0,),
               more={"hidden": {1: (0,), 2: (1,)}})


def ambient_modules():
    for what, private in (("", ()), ("_that_is_not_public", (0,))):
        yield Case(f"a_module_without_body{what}", [unexported(ambient_module("x", body=False))], ["ambient x"], private=private)
        yield Case(f"an_exported_module_without_body{what}", [exported(ambient_module("x", body=False))], ["ambient x"], private=private)
    inside = [unexported(namespace("N", unexported(global_module()), unexported(namespace("M", unexported(ambient_module('"x"')))),
                                   unexported(ambient_module("y", body=False))))]
    yield Case("modules_inside_that_no_skeleton_has", inside, ["global declare global {}", 'ambient "x"', "ambient y"],
               more={"private_inside": [(0, 0), (0, 1, 0), (0, 2)]})
    yield Case("modules_inside_of_what_is_not_public_that_no_skeleton_has", inside, "", private=(0,))


def scopes():
    own = unexported({"Decl": func("f")["ModuleDecl"]["ExportDecl"]["decl"]})
    yield Case("one_name_with_two_scope_numbers", [own, put("a", ONE), put("b", ONE, ctxt=OTHER)],
               "function f(): void {} namespace f { export var a = 1; } export namespace f { export var b = 1; }",
               more=known(("f", MODULE, ("a", "b"), False), ("f", OTHER, (), True)))


CASES = {case.name: case for group in (patterns, values, satisfied, statements, superclasses, modules, ambient_modules, scopes) for case in group()}
