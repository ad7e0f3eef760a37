"""Random modules through `fast-check transform`, against the skeletons that `skeletons` makes by rules of its own.

Each module has items of all kinds, nested at random, with random public ranges and implementations with overloads, and tables of its objects and classes.
What the program answers has to be what the rules give: the skeleton and its sources, or the diagnostics, under the option the first alone. A module that
differs is written to a file.

Usage: python3 -m bench random_modules [COUNT [SEED [PROGRAM]]]       the program has to be built first: ./fast-check transform examples/first.json
"""
import json
import os
import random
import subprocess
import sys
import tempfile

from bench.check.program_path import program_path
from bench.oracle import programs
from bench.oracle.diagnostics import diagnostic
from bench.oracle.items import put
from bench.oracle.module_skeletons import range_of_default, range_of_specifier, sources_of
from bench.oracle.module_trees import (
    alias, ambient_module, default_decl, default_import, default_interface, default_value, export, export_all, export_assignment, global_module, import_,
    interface, named_export, named_import, namespace, namespace_export, property_signature, require, star_export, star_import, using,
)
from bench.oracle.nodes import variant
from bench.oracle.skeletons import Skeleton
from bench.oracle.trees import (
    FREE, MODULE, accessor, angle, array, array_of, array_pattern, arrow, as_, as_const, assign, assign_to, binary, block, call, class_, class_method,
    class_stmt, computed, computed_of, cond, constructor, declarator, decorated, decorator, default, empty_member, exported, fn_stmt, free, freeze,
    function, function_type, getter, hash_method, hash_prop, index, index_signature, instantiation, key_literal, lay_items, lit, literal_type, member, method,
    name, named, new, new_bare, non_null, object_, object_pattern, optional_call, optional_member, pair, param_prop, paren, prop, ref, rest, returned, run,
    satisfies, shorthand, spread, spread_of, static_block, stmt, super_call, template, thrown, type_params, unary, unexported, union, update, var_stmt,
)

SPECIFIER = "file:///p/q/mod.ts"
NAMES = ["a", "b", "c", "f", "g", "C", "D", "Object", "Symbol", "Promise"]
OBJECTS = ["f", "g", "C"]
LITERALS = ['"a"', '"é"', "true", "false", "null", "1", "2.5", "10n", "/a+/g"]
KEYWORDS = ["any", "unknown", "number", "string", "void", "undefined", "never"]
RESOLVED = {"./a": "file:///p/q/a.ts", "../b": "file:///p/b.ts", "./c.ts": "https://h/c.ts", "x": "file:///p/x.ts", ".": "file:///p/q/"}
SOURCES = [*RESOLVED, "./none", "https://h/d.ts"]


def members(node):
    """All members of a tree by their names, each before those inside of it."""
    if isinstance(node, list):
        for each in node:
            yield from members(each)
    elif isinstance(node, dict):
        for name, inside in node.items():
            yield name, inside
            yield from members(inside)


class Writer:
    """Makes random trees. `depth` is how deep a tree may still go."""

    def __init__(self, seed):
        self.random = random.Random(seed)
        self.is_declaration_file = self.chance(0.1)

    def chance(self, part):
        return self.random.random() < part

    def one(self, *choices):
        return self.random.choice(choices)

    def some(self, most, make):
        return [make() for _ in range(self.random.randint(0, most))]

    # -- types

    def type(self, depth=2):
        if depth == 0 or self.chance(0.5):
            return self.one(*KEYWORDS)
        inner = lambda: self.type(depth - 1)
        return self.one(
            lambda: array_of(inner()), lambda: union(inner(), inner()), lambda: function_type(inner()), lambda: literal_type(self.one('"a"', "1", "true", "2n")),
            lambda: named("T"), lambda: named("Promise", inner(), ctxt=self.one(FREE, MODULE)), lambda: named("Map", inner(), inner()))()

    def maybe_type(self, part=0.5):
        return self.type() if self.chance(part) else None

    # -- values

    def reference(self):
        return ref(self.one(*NAMES), self.one(FREE, MODULE, MODULE, 7))

    def value(self, depth=3):
        if depth == 0 or self.chance(0.3):
            return lit(self.one(*LITERALS)) if self.chance(0.6) else self.reference()
        inner = lambda: self.value(depth - 1)
        return self.one(
            lambda: array(*self.some(3, lambda: self.one(inner, lambda: spread(inner()), lambda: None)())), lambda: object_(*self.some(3, lambda: self.property(depth - 1))),
            lambda: as_(inner(), self.type()), lambda: angle(self.type(), inner()), lambda: satisfies(inner(), self.type()), lambda: as_const(inner()),
            lambda: non_null(inner()), lambda: paren(inner()), lambda: cond(inner(), inner(), inner()), lambda: binary(inner(), "+", inner()),
            lambda: unary("-", inner()), lambda: update("++", self.reference()), lambda: assign("a", inner()), lambda: member(inner(), "x"),
            lambda: index(inner(), inner()), lambda: optional_member(inner(), "x"), lambda: call(inner(), *self.some(2, inner)), lambda: optional_call(inner()),
            lambda: freeze(inner()), lambda: freeze(spread(inner())), lambda: freeze(inner(), obj=ref("Object")), lambda: call(free("Symbol")),
            lambda: call(free("Symbol"), inner()), lambda: call(member(free("Symbol"), "for"), lit('"a"')), lambda: new(self.reference(), *self.some(2, inner)),
            lambda: new_bare(self.reference()), lambda: new(self.reference(), type_args=instantiation("string")), lambda: self.arrow(depth - 1),
            lambda: function(self.params(depth - 1), *self.body(depth - 1), ret=self.maybe_type(0.3), is_async=self.chance(0.2), is_generator=self.chance(0.1)),
            lambda: template("a") if self.chance(0.5) else template("a", inner(), "b"), lambda: {"Class": {"ident": None, "class": class_()}})()

    def property(self, depth):
        inner = lambda: self.value(depth)
        return self.one(
            lambda: pair(self.one(*NAMES), inner()), lambda: shorthand(self.one(*NAMES)), lambda: pair(computed(inner()), inner()), lambda: spread_of(inner()),
            lambda: pair(key_literal('"k"'), inner()), lambda: method("m", returned(inner())), lambda: getter("g", returned(inner())))()

    def arrow(self, depth):
        body = block(*self.body(depth)) if self.chance(0.5) else self.value(depth)
        return arrow(self.params(depth), body, ret=self.maybe_type(0.3), is_async=self.chance(0.3))

    # -- functions

    def pattern(self, depth, written=0.6):
        kind = self.random.random()
        if kind < 0.7:
            return name(self.one("p", "q", "r"), self.maybe_type(written), self.chance(0.2))
        if kind < 0.85:
            return array_pattern(*self.some(2, lambda: self.pattern(0)), written=self.maybe_type(written))
        return object_pattern(*self.some(2, lambda: self.one("x", "y")), written=self.maybe_type(written))

    def param(self, depth):
        made = self.pattern(depth)
        if self.chance(0.4):
            if "Ident" in made:
                made["Ident"]["id"]["optional"] = False
            made = default(made, self.value(depth))
        return made

    def params(self, depth):
        made = [self.param(max(depth, 0)) for _ in range(self.random.randint(0, 3))]
        if self.chance(0.15):
            made.append(rest(self.pattern(0, 0), self.maybe_type(0.7)))
        return made

    def declared_params(self, depth):
        return [decorated(param) if self.chance(0.1) else param for param in self.params(depth)]

    def statement(self, depth):
        inner = lambda: self.statement(depth - 1)
        simple = [lambda: returned(), lambda: returned(self.value(1)), lambda: run(self.value(1)), lambda: thrown(lit("1")),
                  lambda: var_stmt("Const", declarator("l", self.value(1))), lambda: fn_stmt("n", [], returned(lit("1")))]
        nested = [lambda: stmt("If", test=ref("a"), cons=inner(), alt=self.one(None, inner())), lambda: {"Block": block(*self.some(2, inner))},
                  lambda: stmt("While", test=ref("a"), body=inner())]
        return self.one(*simple, *(nested if depth else []))()

    def body(self, depth):
        return self.some(2, lambda: self.statement(min(depth, 2)))

    def function_of(self, made, **more):
        """A declared function or a method, with or without a body."""
        has_body = self.chance(0.85)
        body = self.body(2) if has_body else []
        return made(self.declared_params(2), *body, ret=self.maybe_type(0.4), is_async=self.chance(0.15), is_generator=self.chance(0.1), body=has_body,
                    generics=type_params("T") if self.chance(0.1) else None, **more)

    # -- classes

    def key(self):
        return self.one("m", "n", "o", computed(ref("k")), {"Str": key_literal('"s"')["Str"]}, {"Num": key_literal("1")["Num"]})

    def access(self):
        return self.one(None, None, "public", "protected", "private")

    def flags(self, *names):
        return {each: self.chance(0.15) for each in names}

    def class_member(self):
        key, access = self.key(), self.access()
        written = lambda: self.maybe_type(0.4)
        value = lambda: self.value(2) if self.chance(0.7) else None
        return self.one(
            lambda: prop(key, written(), value(), access, **self.flags("static", "abstract", "optional", "override", "readonly", "declare", "definite")),
            lambda: hash_prop("h", written(), value()), lambda: hash_method("h", *self.body(1)), lambda: accessor(key, written(), value(), access, **self.flags("static")),
            lambda: accessor("#h", written(), value()),
            lambda: self.function_of(lambda params, *body, **more: class_method(key, params, *body, access=access, kind=self.one("Method", "Method", "Getter", "Setter"),
                **self.flags("static", "abstract", "optional", "override"), decorators=[decorator()] * self.chance(0.1), **more)),
            lambda: self.constructor(access), lambda: index_signature("i", "string", self.type()), lambda: static_block(*self.body(1)), empty_member)()

    def constructor(self, access):
        def param():
            made = self.param(1)
            if self.chance(0.4) and ("Ident" in made or "Assign" in made):
                return param_prop(made, self.access(), readonly=self.chance(0.3))
            return made
        body = [super_call(self.value(1), *[spread(ref("b"))] * self.chance(0.5))] * self.chance(0.4) + self.body(1)
        return constructor(self.some(3, param), *body, access=access, body=self.chance(0.8))

    def class_parts(self):
        superclass = self.one(None, None, ref("B"), member(ref("B"), "C"), call(ref("f")), index(ref("B"), ref("k")))
        return superclass, self.some(5, self.class_member)

    # -- items

    def declaration(self, depth):
        kinds = [self.variables, self.variables, self.function, self.function, self.class_declaration, lambda: interface("I", property_signature("x", self.type()))]
        if depth:
            kinds += [lambda: namespace(self.one("N", "N.M"), *self.items(depth - 1, 3), declare=self.chance(0.2))]
        if self.chance(0.03):
            kinds = [lambda: using(declarator("u", self.value(1))), lambda: global_module(*self.items(0, 1)), lambda: ambient_module('"m"', *self.items(0, 1), body=self.chance(0.5))]
        return self.one(*kinds)()

    def variables(self):
        def one():
            pattern = self.pattern(0, 0.4) if self.chance(0.1) else name(self.one("v", "w", "x"), self.maybe_type(0.3))
            return declarator(pattern, self.value() if self.chance(0.85) else None)
        return var_stmt(self.one("Const", "Let", "Var"), one(), *self.some(2, one), declare=self.chance(0.1))

    def function(self):
        return self.function_of(lambda params, *body, **more: fn_stmt(self.one("f", "g", "h"), params, *body, **more))

    def class_declaration(self):
        superclass, members = self.class_parts()
        return class_stmt(self.one("C", "D"), *members, super_class=superclass, declare=self.chance(0.1), decorators=[decorator()] * self.chance(0.1))

    def default(self):
        superclass, members = self.class_parts()
        return self.one(
            lambda: default_value(self.value()), lambda: default_interface("I", property_signature("x", self.type())),
            lambda: default_decl({"Class": {"ident": None, "class": class_(superclass, *members)}}),
            lambda: default_decl(self.function_of(lambda params, *body, **more: function(params, *body, name=self.one(None, "f"), **more))))()

    def import_or_export(self):
        source, is_type = self.one(*SOURCES), self.chance(0.2)
        return self.one(
            lambda: import_(source, *self.one([named_import("i"), named_import("j", "k", is_type=self.chance(0.2))], [default_import("d")], [star_import("s")], []), is_type=is_type),
            lambda: export(named_export("l"), named_export("m", "n"), src=self.one(None, source), is_type=is_type), lambda: export(star_export("o"), src=source),
            lambda: export_all(source, is_type=is_type), lambda: alias("n", self.one("A", "A.B")))()

    def expando(self):
        if self.chance(0.85):
            value = array(ref(self.one("a", "b")), self.value(1)) if self.chance(0.3) else self.value(2)
            return put(self.one("a", "b", "x"), value, self.one(*OBJECTS), op=self.one("=", "=", "=", "+="))
        target = self.one(ref("x"), computed_of(ref("f"), lit('"a"')), member(member(ref("f"), "a"), "b"))
        return unexported(run(assign_to(target, self.value(2), "=")))

    def item(self, depth):
        kind = self.random.random()
        if kind < 0.55:
            return exported(self.declaration(depth))
        if kind < 0.68:
            return unexported(self.declaration(depth))
        if kind < 0.8:
            return self.import_or_export()
        if kind < 0.87:
            return self.default()
        if kind < 0.97:
            return self.expando()
        if kind < 0.99:
            return unexported(run(self.value(1)))
        return self.one(lambda: require("r", "x"), lambda: export_assignment(ref("x")), lambda: namespace_export("G"))()

    def items(self, depth, most):
        return [self.item(depth) for _ in range(self.random.randint(0, most))]

    # -- what is known beside the tree

    def tables(self):
        """The symbols of some objects and classes."""
        symbols, ids, exports, keyworded, plain = [{"id": 0}], [], {}, set(), set()
        for text in NAMES:
            is_object = text in OBJECTS
            if not is_object and self.chance(0.6):
                continue
            number, exported_names, keyword, is_plain = len(symbols), [each for each in ("a", "b") if self.chance(0.4)], self.chance(0.5), self.chance(0.5)
            kind = {"Definition": {"is_class": is_plain, "is_plain_class_decl": is_plain, "has_export_keyword": keyword}}
            symbols.append({"id": number, "parent_id": 0, "maybe_name": text, "exports": [[each, number] for each in exported_names],
                            "decls": [{"range": [1, 2], "kind": kind, "value": True}]})
            ids.append([[text, MODULE], number])
            exports[text, MODULE] = exported_names
            keyworded |= {(text, MODULE)} if keyword else set()
            plain |= {(text, MODULE)} if is_plain else set()
        return {"symbols": symbols, "module_symbol": 0, "swc_ids": ids}, exports, keyworded, plain

    def public(self, items, part):
        """Ranges at random, of those that a rule may ask for."""
        return [span for kind, inside in members(items) for span in self.ranges_of(kind, inside, part)]

    def ranges_of(self, kind, node, part):
        if kind in ("ExportDecl", "ExportAll", "TsImportEquals", "ExportDefaultExpr", "ExportDefaultDecl", "Assign", "Import", "ExportNamed"):
            spans = [node["span"]] if "span" in node else []
            spans += [range_of_specifier(each) for each in node.get("specifiers", [])]
        elif kind == "Decl":
            spans = [each["span"] for each in variant(node)[1].get("decls", [])] or [range_of_default(node)]
        elif kind == "decl" and isinstance(node, dict):
            spans = [each["span"] for each in variant(node)[1].get("decls", [])] if len(node) == 1 else []
        else:
            spans = []
        return [span for span in spans if self.chance(part)]

    def implementations(self, items, part):
        """Ranges at random, of those that may be implementations with overloads."""
        kinds = ("ExportDecl", "Method", "Constructor", "ExportDefaultDecl")
        return [inside["span"] for kind, inside in members(items) if kind in kinds and "span" in inside and self.chance(part)]

    def case(self):
        """A request, and what has to be answered."""
        items, text = lay_items(self.items(2, 6))
        part, first = self.one(0.6, 0.9, 1.0), self.chance(0.1)
        ranges, impls = self.public(items, part), self.implementations(items, 0.1)
        tables, exports, keyworded, plain = self.tables()
        media_type = "Dts" if self.is_declaration_file else "TypeScript"
        made = Skeleton(items, ranges, impls, media_type, specifier=SPECIFIER, resolved=RESOLVED, plain_classes=plain, exports=exports, keyworded=keyworded)
        program = lambda body: {"span": [1, len(text.encode()) + 1], "body": body, "shebang": None}
        comments = {"leading": [], "trailing": []}
        source = {"media_type": media_type, "text": text, "program": {"Module": program(items)}, "comments": comments, "unresolved_context": FREE}
        graph = {"modules": [], "resolutions": [[SPECIFIER, each, url] for each, url in RESOLVED.items()], "packages": []}
        request = {"graph": graph, "module": {"specifier": SPECIFIER, "source": source, **tables}, "ranges": ranges, "impls": impls, "first": first}
        faults = made.faults[:1] if first else made.faults
        if faults:
            return request, {"Err": [diagnostic(fault, SPECIFIER, "") for fault in faults]}
        return request, {"Ok": {"module_info": {"sources": sources_of(made.items)}, "program": program(made.items), "comments": comments}}


def answer_of(program, request):
    with tempfile.NamedTemporaryFile("w", suffix=".json") as file:
        json.dump(request, file, ensure_ascii=False)
        file.flush()
        done = subprocess.run([program, "transform", file.name], capture_output=True, text=True)
    return json.loads(done.stdout) if done.returncode in (0, 1) else {"refused": done.stderr}


def without_pages(answer):
    """An answer without the pages of its diagnostics."""
    return {"Err": [dict(told, docs_url=None) for told in answer["Err"]]} if "Err" in answer else answer


def main():
    count, seed = int((sys.argv + ["1000"])[1]), int((sys.argv + ["1", "1"])[2])
    program = program_path(sys.argv[3] if len(sys.argv) > 3 else programs.transform())
    differ, trees, faults = 0, 0, {}
    for number in range(seed, seed + count):
        request, expected = Writer(number).case()
        given = without_pages(answer_of(program, request))
        trees += "Ok" in expected
        for told in expected.get("Err", []):
            faults[told["code"]] = faults.get(told["code"], 0) + 1
        if given != without_pages(expected):
            differ += 1
            path = os.path.join(tempfile.gettempdir(), f"module_{number}.json")
            with open(path, "w") as file:
                json.dump({"request": request, "expected": expected, "given": given}, file, ensure_ascii=False)
            print(f"{number} differs: {path}")
    print(f"{count} modules, {trees} with a skeleton, {differ} differ; faults: {faults}")
    sys.exit(differ > 0)


if __name__ == "__main__":
    main()
