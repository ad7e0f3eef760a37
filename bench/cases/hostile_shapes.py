"""Shapes of hostile tables, each made for a number: rings, long paths, long names, texts of one hash, many that ask for one thing. Stored runs have them
small (`hostile_cases.py`), and `bench/check/shapes.py` makes each of 100 KB. The trees are empty."""
import math

from bench.cases.one_hash import NAME_LETTERS, URL_LETTERS, colliding
from bench.check.tables import (
    FEW, HOST, NO_TEXT, RANGES, by_name, chain_to, decl, definition, exports_of, file_ref, import_type, module, names_that_ask, namespace_of_items,
    one_name, part, request, single, symbol, target, url,
)


def alias_ring(n):
    return single([symbol(i, target(f"s{i % n + 1}")) for i in range(1, n + 1)], [["s1", 1]])


def alias_chain_of(n, last):
    return [symbol(i, target(f"s{i + 1}")) for i in range(1, n)] + last


def alias_chain(n):
    return single(alias_chain_of(n, [symbol(n, definition())]), [["s1", 1]])


def own_parents(n):
    return single([symbol(i, definition(is_member=True), parent=i) for i in range(1, n + 1)], [[f"s{i}", i] for i in range(1, n + 1)])


def again_from_itself(n):
    return request(module(url(0), [], [], again=[url(0)] * n))


def in_one_another(n):
    return [symbol(i, definition(is_ts_namespace=True), parent=i - 1, exports=[[f"s{i + 1}", i + 1]] if i < n else []) for i in range(1, n + 1)]


def nested_namespaces(n):
    return single(in_one_another(n), [["s1", 1]])


def path_of_names(n):
    return single([symbol(1, part("N", *["N"] * n)), symbol(2, definition(is_ts_namespace=True), name="N", exports=[["N", 2]])], [["s1", 1]])


def path_of_two_askers(n):
    """Such a path that two declarations ask for: each of them gets its own faults, and the names that are left are told apart at once."""
    asks = [symbol(i, part("N", *["N"] * n)) for i in (1, 2)]
    return single([*asks, symbol(3, definition(is_ts_namespace=True), name="N", exports=[["N", 3]])], [["s1", 1], ["s2", 2]])


def path_behind_a_file(n, name="N"):
    """A path of names that is asked of another module, where each name stands below the one before."""
    asks = [symbol(1, part("f", *[name] * n)), symbol(2, file_ref(url(1), name), name="f")]
    gives = [symbol(1, definition(is_ts_namespace=True), name=name, exports=[[name, 1]])]
    return request(module(url(0), asks, [["s1", 1]]), module(url(1), gives, [[name, 1]]))


def paths_that_part_behind_a_file(n):
    """Two such paths, which differ in the last name: what is left of one is told apart from what is left of the other."""
    asks = [symbol(i, part("f", *["N"] * n, last)) for i, last in ((1, "x"), (2, "y"))]
    gives = [symbol(1, definition(is_ts_namespace=True), name="N", exports=[["N", 1], ["x", 2], ["y", 3]]),
             *(symbol(i, definition(), parent=1, name=name) for i, name in ((2, "x"), (3, "y")))]
    return request(module(url(0), [*asks, symbol(3, file_ref(url(1), "N"), name="f")], [["s1", 1], ["s2", 2]]), module(url(1), gives, [["N", 1]]))


def namespaces_behind_a_file(n):
    """The same of a path through namespaces in one another."""
    asks = [symbol(1, part("f", *(f"s{i}" for i in range(2, n + 1)))), symbol(2, file_ref(url(1), "s1"), name="f")]
    return request(module(url(0), asks, [["s1", 1]]), module(url(1), in_one_another(n), [["s1", 1]]))


def of_references(n, *paths):
    """Paths that are asked of a symbol with n declarations, each of which stands for one name of a file."""
    asks = [symbol(1 + i, part("s1", *names)) for i, names in enumerate(paths, 1)]
    return request(module(url(0), [symbol(1, *[file_ref(url(1), "N")] * n), *asks], [[each["maybe_name"], each["id"]] for each in asks]),
                   module(url(1), [symbol(1, definition(), name="N")], [["N", 1]]))


def paths_of_many_references(n):
    """Paths that are asked of a symbol of as many declarations, which all stand for one name of a file."""
    return of_references(n, *([f"x{i}"] for i in range(1, n + 1)))


def paths_below(n, *decls):
    """One declaration asks n paths of one name of a symbol with these declarations, which are aliases of another symbol."""
    asks = definition(*([{"QualifiedId": [["s2", 1], [f"x{i}"]]}, "Type_"] for i in range(n)))
    return single([symbol(1, asks), symbol(2, *decls), symbol(3, definition())], [["s1", 1]])


def paths_of_references_of_which_few_lead_somewhere(n):
    """The same, where two of them are of a file that is there."""
    made = paths_below(n, *(file_ref("./no.ts", f"y{i}") for i in range(n)), file_ref("./1.ts", "s1"), file_ref("./1.ts", "s2"))
    made["modules"].append(one_name(url(1)))
    made["graph"]["modules"].append([url(1), {"Js": {"media_type": "TypeScript"}}])
    return nowhere(made, [url(0), "./1.ts", url(1)])


def paths_of_many_targets(n):
    """Paths that are asked of a symbol of as many declarations, which are all aliases of one symbol."""
    return paths_below(n, *[target("s3")] * n)


def paths_of_unbound_targets(n):
    """Paths that are asked of a symbol, and its aliases of names that nothing binds."""
    return paths_below(n, *(target(f"u{i}") for i in range(n)))


def paths_of_one_target_by_many_names(n):
    """Paths that are asked of a symbol, and its aliases of one symbol under different names."""
    asks = definition(*([{"QualifiedId": [["s2", 1], [f"x{i}"]]}, "Type_"] for i in range(n)))
    ids = [[["s1", 1], 1], [["s2", 1], 2], *([[f"u{i}", 1], 3] for i in range(n))]
    return single([symbol(1, asks), symbol(2, *(target(f"u{i}") for i in range(n))), symbol(3, definition())], [["s1", 1]], ids=ids)


def parts_of_an_alias_of_a_long_name(n):
    """Parts that are asked of an alias of a symbol with a long name."""
    long = "N" * (100 * n)
    asks = definition(*([{"QualifiedId": [["s2", 1], [f"x{i}"]]}, "Type_"] for i in range(n)))
    ids = [[["s1", 1], 1], [["s2", 1], 2], [[long, 1], 3]]
    return single([symbol(1, asks), symbol(2, target(long)), symbol(3, definition())], [["s1", 1]], ids=ids)


def path_through_aliases(n):
    """A path of names that is asked of the first of a chain of aliases."""
    last = [symbol(n, definition(is_ts_namespace=True), exports=[["N", n]])]
    return single([*alias_chain_of(n, last), symbol(n + 1, part("s1", *["N"] * n))], [[f"s{n + 1}", n + 1]])


def parts_through_aliases(n):
    """Parts of a namespace that are asked of the first of a chain of aliases: each alias is asked for each of them."""
    parts = [symbol(n + i, definition(), parent=n, name=f"x{i}") for i in range(1, n + 1)]
    last = [symbol(n, definition(is_ts_namespace=True), exports=[[f"x{i}", n + i] for i in range(1, n + 1)])]
    asks = [symbol(2 * n + i, part("s1", f"x{i}")) for i in range(1, n + 1)]
    return single([*alias_chain_of(n, last), *parts, *asks], [[f"s{2 * n + i}", 2 * n + i] for i in range(1, n + 1)])


def askers_through_aliases(n):
    """One part that many declarations ask of the first of a chain of aliases: each of them gets its own faults, and so is followed by itself."""
    last = [symbol(n, definition(is_ts_namespace=True), exports=[["x", n + 1]]), symbol(n + 1, definition(), parent=n, name="x")]
    asks = [symbol(n + 1 + i, part("s1", "x")) for i in range(1, n + 1)]
    return single([*alias_chain_of(n, last), *asks], [[f"s{n + 1 + i}", n + 1 + i] for i in range(1, n + 1)])


def members_asked_for(n):
    inside = [symbol(i, definition(is_member=True), parent=1) for i in range(2, n + 2)]
    asks = [symbol(i + n, part("s1", "prototype", f"s{i}")) for i in range(2, n + 2)]
    return single([symbol(1, definition(is_class=True), members=list(range(2, n + 2))), *inside, *asks], [[f"s{i + n}", i + n] for i in range(2, n + 2)])


def parts_of_many_declarations(n):
    """Parts that are asked of a namespace of as many declarations, none of which implements overloads."""
    parts = [symbol(1 + i, definition(), parent=1, name=f"x{i}") for i in range(1, n + 1)]
    asks = [symbol(n + 1 + i, part("s1", f"x{i}")) for i in range(1, n + 1)]
    of = symbol(1, *[definition(is_ts_namespace=True)] * n, exports=[[f"x{i}", 1 + i] for i in range(1, n + 1)])
    return single([of, *parts, *asks], [[f"s{n + 1 + i}", n + 1 + i] for i in range(1, n + 1)])


OUTSIDE = decl({"Definition": {}}, range=[20, 29])


def properties_of_overloads(n):
    """A function with as many overloads as properties, which stand outside of each of them."""
    properties = [symbol(1 + i, OUTSIDE, parent=1, name=f"x{i}") for i in range(1, n + 1)]
    return single([symbol(1, *[definition(is_function=True)] * n, exports=[[f"x{i}", 1 + i] for i in range(1, n + 1)]), *properties], [["s1", 1]])


def properties_of_one_symbol(n):
    """A function whose properties all have one symbol, of as many declarations."""
    return single([symbol(1, definition(is_function=True), exports=[[f"x{i}", 2] for i in range(n)]), symbol(2, *[OUTSIDE] * n, parent=1)], [["s1", 1]])


def one_property_of_many_functions(n):
    """Functions that export one symbol of as many declarations, which are public with each."""
    functions = [symbol(i, definition(is_function=True), exports=[["x", n + 1]]) for i in range(1, n + 1)]
    return single([*functions, symbol(n + 1, *[OUTSIDE] * n, parent=1, name="x")], [[f"s{i}", i] for i in range(1, n + 1)])


def assignment(name):
    """The statement `name.x = 1;` at the range of all declarations."""
    member = {"Member": {"span": [1, 4], "obj": {"Ident": {"span": [1, 2], "ctxt": 1, "sym": name}}, "prop": {"Ident": {"span": [3, 4], "sym": "x"}}}}
    assign = {"span": RANGES[0], "op": "=", "left": {"Simple": member}, "right": {"Lit": {"Num": {"span": [7, 8], "raw": "1"}}}}
    return {"Stmt": {"Expr": {"span": RANGES[0], "expr": {"Assign": assign}}}}


def every_table_fault(n):
    """Symbols that are mentioned and missing, symbols without declarations, a module under another name, and assignments to what has no symbol."""
    lost = [symbol(i, parent=10_000_000 + i, exports=[["x", 20_000_000 + i]], members=[30_000_000 + i], is_private_member=True) for i in range(1, n + 1)]
    made = module(url(0), [*lost, symbol(n + 1, definition())], [["x", 40_000_000]])[1]
    made["Esm"]["source"] = {**NO_TEXT, "program": {"Module": {"span": [1, 9], "body": [assignment("f") for _ in lost]}}}
    return request([url(1), made])


def duplicate_keys(n):
    own = module(url(0), [symbol(1, definition())], [["s1", 1]] * n, ids=[[["s1", 1], 1]] * n)
    made = request(own)
    made["graph"]["modules"] *= n
    made["graph"]["packages"] *= n
    made["provider"]["packages"] *= n
    made["pending"] *= n
    return {**made, "aliases": [[HOST + "a.ts", url(0)]] * n}


def versions_of_a_member(n):
    """Versions of a member of the workspace that has none, and as many exports: each version enters all of them."""
    member = {"name": "@w/w", "base": "file:///w/", "exports": [[f"{i}", "./m.ts"] for i in range(n)]}
    return request(module("file:///w/m.ts", [symbol(1, definition())], [["s1", 1]]), workspace_members=[member], pending=[f"@w/w@0.0.{i}" for i in range(n)])


def through_re_exports(n, symbols_of):
    """Names that are asked of a module which exports all of as many others, with these symbols and exports of each."""
    asks = [symbol(i, file_ref(url(1), f"s{i}")) for i in range(1, n + 1)]
    others = [module(url(1 + i), *symbols_of(i)) for i in range(1, n + 1)]
    return request(module(url(0), asks, [[f"s{i}", i] for i in range(1, n + 1)]), module(url(1), [], [], again=[url(1 + i) for i in range(1, n + 1)]), *others)


def names_that_no_re_export_has(n):
    return through_re_exports(n, lambda i: ([], []))


def names_of_many_re_exports(n):
    """Each of the names is behind another re-export."""
    return through_re_exports(n, lambda i: ([symbol(1, definition(), name=f"s{i}")], [[f"s{i}", 1]]))


def covered(n, parts, others=()):
    """One declaration asks by import types for a path below each name of a module, and for these others; in a later turn that of another module asks for all
    of each name."""
    asks = [import_type(url(1), f"s{i}", *parts(i)) for i in range(1, n + 1)]
    names = [[f"s{i}", i] for i in range(1, n + 1)]
    return request(module(url(0), [symbol(1, definition(*asks, *others, import_type(url(2))))], [["s1", 1]]),
                   module(url(1), [symbol(i, definition()) for i in range(1, n + 1)], names),
                   module(url(2), [symbol(1, definition(*(import_type(url(1), f"s{i}") for i in range(1, n + 1))))], [["s1", 1]]))


def names_covered_before_others(n):
    """Names that come to be asked for whole, where the nodes at the end of the set hang on one behind those that go."""
    return covered(n, lambda i: ["x"], [import_type(url(1), "m", f"y{i}", "z") for i in range(1, n + 1)])


def paths_covered_of_many_lengths(n):
    """Paths of one to seven names more: nodes that move leave a path in pieces, which goes later."""
    return covered(n, lambda i: ["x"] * (1 + i % 7))


def looked_up(n, start, text, **listed):
    """Import types of one file by two texts in turn, whose URL is looked up among these."""
    asked = definition(*(import_type(("./p", "./q")[i % 2], f"s{i}") for i in range(n)))
    made = request(module(url(0), [symbol(1, asked)], [["s1", 1]]), **listed)
    made["graph"]["resolutions"] = [[url(0), each, start + text] for each in ("./p", "./q")]
    return made


def that_part_from(start, path):
    """URLs that part from start + path, each at another of its bytes, and two of which one begins the other."""
    return [start + path[:i] + "!" for i in range(len(path) + 1)] + [start + "!!"]


def urls_beside_bases(n):
    """Look-ups of a URL among listed packages, as many as the root of n, whose URLs part from it at each byte."""
    path = "q" * math.isqrt(8 * n)
    return looked_up(n, HOST, path + "q", versions=[[f"@q/q{i}@1.0.0", each] for i, each in enumerate(that_part_from(HOST, path))])


def renamed(made, nv):
    """The request with another name of its package."""
    made["graph"]["packages"][0][0] = made["provider"]["packages"][0][0] = nv
    return {**made, "pending": [nv]}


def entry_points_of_a_long_package(n):
    """Entry points of a package that has a long name."""
    exports = [[f"{i}", "./0.ts"] for i in range(n)]
    return renamed(request(module(url(0), [symbol(1, definition())], [["s1", 1]]), exports=exports), "@p/" + "p" * (25 * n) + "@1.0.0")


def two_packages_of_each_other(n):
    each = lambda i, p: module(url(i, p), [symbol(1, file_ref(url(i + p, 1 - p), "s1"))], [["s1", 1]])
    return request(*(each(i, p) for i in range(n) for p in (0, 1)), packages=2)


def alias_urls(n):
    return [url(f"a{i}") for i in range(n)]


def under_aliases(n, of, *more, by=()):
    """A module that exports all of n others, or asks for these import types of them, which are all one module by aliases; and these modules more."""
    asks = module(url(0), [symbol(1, definition(*by))], [["s1", 1]]) if by else module(url(0), [], [], again=alias_urls(n))
    made = request(asks, of, *more, aliases=[[each, of[0]] for each in alias_urls(n)])
    made["graph"]["modules"] += [[each, {"Js": {"media_type": "TypeScript"}}] for each in alias_urls(n)]
    return made


def aliases_of_a_module(n):
    """Aliases of a module that are asked for, and its names."""
    return under_aliases(n, module(url(1), [symbol(i, definition()) for i in range(1, n + 1)], exports_of("s", n)))


def names_of_aliases(n):
    """The same, where each alias is asked for one name, from which all others follow."""
    names = module(url(1), [symbol(i, definition(by_name(f"s{i % n + 1}"))) for i in range(1, n + 1)], exports_of("s", n))
    return under_aliases(n, names, by=[import_type(each, f"s{1 + i}") for i, each in enumerate(alias_urls(n))])


def aliases_of_re_exports(n):
    """Aliases of a module that are asked for, and its re-exports of all, which are the same demands under each."""
    return under_aliases(n, module(url(1), [], [], again=alias_urls(n)))


def levels_of_qualified_aliases(n):
    """Such aliases, each of a path of names below the next one: what is asked of one is asked of all behind it, with the names of its own path."""
    levels = math.isqrt(n)
    aliases = [symbol(i, part(f"s{i + 1}", *(f"y{i}_{j}" for j in range(levels)))) for i in range(2, levels + 2)]
    return single([symbol(1, part("s2", "x")), *aliases, symbol(levels + 2, definition())], [["s1", 1]])


def path_through_files(n):
    """Modules in a chain, each of which asks the next one for a path: each is asked for all that is left of it, and each demand has its names."""
    asks = [symbol(1, part("f", *["N"] * n)), symbol(2, file_ref(url(1), "N"), name="f")]
    through = [module(url(i), [symbol(1, file_ref(url(i + 1), "N"), name="N")], [["N", 1]]) for i in range(1, n)]
    return request(module(url(0), asks, [["s1", 1]]), *through, module(url(n), [symbol(1, definition(), name="N")], [["N", 1]]))


def packages_of_one_hash(n):
    """Packages that the graph knows, times those that were found before: these are told apart by their hash, which is one."""
    pending = [each + "@1.0.0" for each in colliding(n, NAME_LETTERS)]
    made = request(module(url(0), [], []), pending=pending)
    made["graph"]["packages"] += [[nv, []] for nv in pending]
    return made


def exports_of_one_hash(n):
    """Names that a package exports, for which nobody asks, times those that it exports before."""
    made = request(module(url(0), [], []))
    made["graph"]["packages"].append(["@p/q@1.0.0", [[each, "./0.ts"] for each in colliding(n, NAME_LETTERS)]])
    return made


# ---- a module that is followed again and again, each time for one name more


def names_asked_in_turns(n):
    """Turns in which a name of one module is asked for, each of which leads to the items of a namespace."""
    return chain_to(n, lambda i: [f"a{i}"], names_that_ask("N", n, *namespace_of_items(n)))


def declarations_asked_in_turns(n):
    """Turns in which a part of a symbol is asked for, all of whose declarations are public by each."""
    parts = [symbol(1 + i, definition(), parent=1, name=f"x{i}") for i in range(1, n + 1)]
    whole = symbol(1, *[FEW] * (3 * n), exports=[[f"x{i}", 1 + i] for i in range(1, n + 1)])
    return chain_to(n, lambda i: ["s1", f"x{i}"], module(url("m"), [whole, *parts], [["s1", 1]]))


def property_in_turns(n, at, ranges):
    """Turns in which a function is asked for, each of which exports one symbol. The functions and its declarations stand at these ranges."""
    functions = [symbol(i, {**definition(is_function=True), "range": at(i)}, name=f"a{i}", exports=[["x", n + 1]]) for i in range(1, n + 1)]
    exported = symbol(n + 1, *(decl({"Definition": {}}, range=each) for each in ranges), parent=1, name="x")
    return chain_to(n, lambda i: [f"a{i}"], module(url("m"), [*functions, exported], exports_of("a", n)))


def one_property_in_turns(n):
    """Such functions at one range, outside of which the symbol is declared as often."""
    return property_in_turns(n, lambda i: [1, 9], [[20, 29]] * n)


def two_in_turns(n, first, second, symbols=(), *deps):
    """Two modules at these URLs that ask each other for a name in turn, n times. The second has these symbols too, and each of its names these dependencies."""
    asks = [symbol(i, definition(import_type("second", f"a{i}")), name=f"b{i}") for i in range(1, n + 1)]
    gives = [symbol(i, definition(*deps, *([import_type("first", f"b{i + 1}")] if i < n else [])), name=f"a{i}") for i in range(1, n + 1)]
    entry = module(url(2), [symbol(1, definition(import_type("first", "b1")))], [["s1", 1]])
    both = module(first, asks, exports_of("b", n), resolved_exports=[]), module(second, [*gives, *symbols], exports_of("a", n), resolved_exports=[])
    made = request(entry, *both, exports=[[".", "./2.ts"]])
    made["graph"]["resolutions"] = [[url(2), "first", first], [first, "second", second], [second, "first", first]]
    return made


def names_of_two_modules_in_turns(n):
    """Two modules that ask each other for a name in turn, of which the names of one lead to the items of a namespace."""
    return two_in_turns(n, url(0), url(1), namespace_of_items(n), by_name("N"))


def chain_asked_from_its_end(n):
    """Turns in which a name is asked for that leads to all that were asked for before."""
    symbols = [symbol(i, definition(by_name(f"a{i + 1}")), name=f"a{i}") for i in range(1, n + 1)]
    return chain_to(n, lambda i: [f"a{n + 1 - i}"], module(url("m"), symbols, exports_of("a", n)))


def files_asked_in_turns(n):
    """Turns in which a name is asked for that leads to the import types of one symbol."""
    big = symbol(n + 1, definition(*(import_type("o:o", f"x{i}") for i in range(n))), name="B")
    made = chain_to(n, lambda i: [f"a{i}"], names_that_ask("B", n, big), module(url(n + 1), [symbol(1, definition())], [["s1", 1]]))
    made["graph"]["resolutions"].append([url("m"), "o:o", url(n + 1)])
    return made


def re_exports_in_turns(n):
    """Turns in which a name is asked for that stands behind one of many re-exports of all, in each behind the next one."""
    others = [module(url(f"m{i}"), [symbol(1, definition(), name=f"a{i}")], [[f"a{i}", 1]]) for i in range(1, n + 1)]
    return chain_to(n, lambda i: [f"a{i}"], module(url("m"), [], [], again=[each[0] for each in others]), *others)


def no_re_export_in_turns(n):
    """Turns in which a name is asked for that no re-export of all has: all are public in each."""
    return chain_to(n, lambda i: [f"a{i}"], module(url("m"), [], [], again=[url(0)] * n), module(url(0), [], []))


def qualified_in_turns(n, *symbols):
    """Turns in which a path is asked of an alias that is one of a path itself, of n names below the second of these symbols."""
    return chain_to(n, lambda i: ["s1", f"x{i}"], module(url("m"), [symbol(1, part("s2", *(f"y{i}" for i in range(n)))), *symbols], [["s1", 1]]))


def qualified_alias_in_turns(n):
    """Such turns, where each of the names of the alias's own path is asked for in the first two."""
    return qualified_in_turns(n, symbol(2, definition()))


def parts_through_aliases_in_turns(n):
    """Such turns, and a chain of aliases below: each path that is asked goes through all of them, and each of the names of that path does, once."""
    turns = n // 8
    return qualified_in_turns(turns, *(symbol(i, target(f"s{i + 1}")) for i in range(2, turns + 2)), symbol(turns + 2, definition()))


# ---- long names, texts and URLs


def nowhere(made, *others):
    """The request, where the texts of its modules resolve to nothing, but for these."""
    made["graph"]["resolutions"] = list(others)
    return made


def of_these_packages(made, *packages):
    """The request, where these packages are listed too: the graph has no exports of them, so nothing of them is followed."""
    made["provider"]["packages"] += [[f"{name}@1.0.0", base] for name, base in packages]
    return made


def with_alias(made, alias, of):
    """The request, where a URL stands for another."""
    made["graph"]["modules"].append([alias, {"Js": {"media_type": "TypeScript"}}])
    return {**made, "aliases": [[alias, of]]}


def long_packages(n, letters):
    return [(f"@q/{letter * (100 * n)}", f"{HOST}{letter}/") for letter in letters]


def leaving(n, *files):
    """A path of one name again and again, at each of which it stands for these files too."""
    asks = symbol(1, part("N", *["N"] * n))
    through = symbol(3, target("N"), *files, parent=2, name="M")
    return request(module(url(0), [asks, symbol(2, definition(is_ts_namespace=True), name="N", exports=[["N", 3]]), through], [["s1", 1]]), one_name(url(1)))


def path_that_leaves_at_each_name(n):
    """A path at each of whose names all that is left of it is asked of another module, and all of that at last, which covers the rest."""
    return leaving(n, decl({"FileRef": {"specifier": url(1), "name": "Star"}}))


def path_that_leaves_below_a_name(n):
    """The same below one name of the other module, which is asked for whole at last."""
    return leaving(n, file_ref(url(1), "s1"))


def askers_of(n, asked, *others):
    """Symbols that ask one path of a symbol; and these modules more."""
    asks = [symbol(1 + i, part(asked["maybe_name"], "x")) for i in range(1, n + 1)]
    return request(module(url(0), [asked, *asks], [[f"s{1 + i}", 1 + i] for i in range(1, n + 1)]), *others)


def askers_of_many_references(n):
    """Symbols that ask one path of a symbol, and the exports of a file for which that stands."""
    return askers_of(n, symbol(1, *(file_ref(url(1), f"y{i}") for i in range(n))), one_name(url(1)))


def askers_of_one_part_by_many_names(n):
    """Symbols that ask one path of a symbol, and its aliases of one part of one symbol under different names."""
    asks = [symbol(2 + i, part("s1", "x")) for i in range(1, n + 1)]
    ids = [[["s1", 1], 1], *([[f"s{2 + i}", 1], 2 + i] for i in range(1, n + 1)), *([[f"u{i}", 1], 2] for i in range(n))]
    symbols = [symbol(1, *(part(f"u{i}", "y") for i in range(n))), symbol(2, definition()), *asks]
    return request(module(url(0), symbols, [[f"s{2 + i}", 2 + i] for i in range(1, n + 1)], ids=ids))


def askers_of_a_long_import(n):
    """Symbols that ask one part of an import of a long name."""
    return askers_of(n, symbol(1, file_ref(url(1), "N" * (200 * n)), name="f"), one_name(url(1)))


def files_of_two_long_packages(n):
    """URLs that one module asks for, which belong to two packages with long names in turn: the provider answers a name for each."""
    packages = long_packages(n, "ab")
    asks = definition(*(import_type(f"{packages[i % 2][1]}{i}.ts", "x") for i in range(n)))
    return of_these_packages(single([symbol(1, asks)], [["s1", 1]]), *packages)


def modules_that_depend_on_a_long_package(n):
    """Modules of a package, each of which depends on another one with a long name: the provider answers that name for each."""
    (name, base), = long_packages(n, "a")
    each = lambda i: module(url(i), [symbol(1, definition(import_type(base + "m.ts", "x")))], [["s1", 1]])
    return of_these_packages(request(*map(each, range(n)), exports=[[f"./{i}", f"./{i}.ts"] for i in range(n)]), (name, base))


def re_exports_in_a_long_url(n):
    """Re-exports of all by different texts in a module at a long URL."""
    long = url("a" * (60 * n))
    asks = definition(import_type("./a.ts", "x"), import_type("./a.ts", "y"))
    made = request(module(url(0), [symbol(1, asks)], [["s1", 1]]), module(long, [], [], again=[f"./{i}.ts" for i in range(n)]))
    return nowhere(made, [url(0), "./a.ts", long], [long, "./b.ts", url(0)])


def re_exports_of_an_alias_of_a_long_url(n):
    """Re-exports of all by different texts, which all lead by an alias to a module at a long URL."""
    long, alias = url("b" * (60 * n)), url("alias")
    asks = definition(import_type("./a.ts", "x"), import_type("./a.ts", "y"))
    texts = [f"./{i}.ts" for i in range(n)]
    made = request(module(url(0), [symbol(1, asks)], [["s1", 1]]), module(url(1), [], [], again=texts), one_name(long))
    return with_alias(nowhere(made, [url(0), "./a.ts", url(1)], *([url(1), text, alias] for text in texts)), alias, long)


def one_name_behind_a_long_url(n):
    """Re-exports of all by one text that leads to a long URL, where one name that it lacks is looked for."""
    long = url("b" * (100 * n))
    asks = definition(import_type("./a.ts", "x"))
    made = request(module(url(0), [symbol(1, asks)], [["s1", 1]]), module(url(1), [], [], again=["./b.ts"] * n), one_name(long))
    return nowhere(made, [url(0), "./a.ts", url(1)], [url(1), "./b.ts", long])


def modules_of_one_hash(n):
    """Modules that are asked for, times those that were asked for before: their URLs have one hash."""
    made = request(module(url(0), [symbol(1, definition(*(import_type(f"{i}", "s") for i in range(n))))], [["s1", 1]]))
    made["graph"]["resolutions"] = [[url(0), f"{i}", each] for i, each in enumerate(colliding(n, URL_LETTERS, HOST + "0/"))]
    return made
