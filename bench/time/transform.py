"""Times `fast-check transform` on modules of growing size.

For each shape and size it prints the input's megabytes, the program's processor seconds and peak memory, the processor seconds that a JSON library of
Python (orjson, or json where that isn't there) takes to load and dump the same text, those of Node's JSON (where there is a Node), and the program's ratio
to the first.
The program has to be built: run `./fast-check transform examples/first.json` once.

Usage: python3 -m bench transform [MEGABYTES ..] [PROGRAM]        (1 2 5 10 20 where none is given)
"""
import gc
import json
import os
import shutil
import subprocess
import sys
import time

from bench.check.growth import spent
from bench.check.program_path import program_path
from bench.oracle import items as cases
from bench.oracle import module_trees, programs, trees
from bench.oracle.ranges import ranges_of_item

try:
    import orjson
    NAME, LOAD, DUMP = "orjson", orjson.loads, orjson.dumps
except ImportError:
    NAME, LOAD, DUMP = "json", json.loads, lambda value: json.dumps(value).encode()

DEPTH = 40


def literal(kind, place):
    if kind == 0:
        return {"Lit": {"Str": {"span": [place, place + 5], "value": f"a{place}", "raw": f'"a{place}"'}}}
    if kind == 1:
        return {"Lit": {"Num": {"span": [place, place + 5], "raw": str(place)}}}
    return {"Lit": {"Bool": {"span": [place, place + 4], "value": True}}}


def nested(place):
    value = literal(1, place)
    for level in range(DEPTH):
        value = {"Paren": {"span": [place - level, place + 5 + level], "expr": value}}
    return value


def declarator(index, place, shape):
    name = {"id": {"span": [place, place + 5], "ctxt": 2, "sym": f"x{index}", "optional": False}, "type_ann": None}
    value = literal(index % 3, place + 8)
    if shape == "deep":
        name["type_ann"] = {"span": [place + 5, place + 7], "type_ann": {"TsKeywordType": {"span": [place + 5, place + 7], "kind": "TsNumberKeyword"}}}
        value = nested(place + 60)
    return {"span": [place, place + 20], "name": {"Ident": name}, "init": value, "definite": False}


def statement(declarators, start, end):
    var = {"span": [start + 7, end], "ctxt": 0, "kind": "Const", "declare": False, "decls": declarators}
    return {"ModuleDecl": {"ExportDecl": {"span": [start, end], "decl": {"Var": var}}}}


def functions():
    """Two functions and an arrow, laid out: types, defaults, patterns, a rest, bodies of some statements, an object."""
    string, one, first = trees.name("first", "string"), trees.lit("1"), trees.ref("first")
    call = trees.call(trees.ref("g"), first)
    loop = trees.stmt("ForOf", is_await=False, left={"Pat": trees.name("each")}, right=trees.ref("others"), body=trees.run(call))
    pattern = trees.default(trees.object_pattern("a", "b", written=cases.T), trees.object_())
    params = [string, trees.default(trees.name("second", "number"), one), pattern, trees.rest(trees.name("others"), trees.array_of("string"))]
    added = trees.var_stmt("Const", trees.declarator("sum", trees.binary(first, "+", one)))
    typed = cases.func("f", params, added, cases.if_(first, trees.returned(call)), loop, trees.returned(first), ret="string")
    untyped = cases.func("h", [trees.default(trees.name("a"), one), trees.default(trees.name("b"), trees.lit('"b"'))], trees.run(call), loop)
    value = trees.object_(trees.pair("name", first), trees.pair("at", trees.array(one, one)), trees.pair("next", trees.arrow([string], call, ret="void")))
    return trees.lay_items([typed, untyped, cases.const("v", trees.arrow([string, trees.default(trees.name("b"), one)], trees.paren(value)))])


def classes():
    """A class of every kind of member, laid out, with bodies of some statements, and an ambient one."""
    string, one, first = trees.name("first", "string"), trees.lit("1"), trees.ref("first")
    call = trees.call(trees.ref("g"), first)
    body = [trees.var_stmt("Const", trees.declarator("sum", trees.binary(first, "+", one))), cases.if_(first, trees.run(call))]
    members = [
        trees.hash_prop("x", value=one), trees.prop("a", value=one, readonly=True), trees.prop("b", "string", trees.lit('"b"'), access="private"),
        trees.constructor([string, trees.param_prop(trees.default(trees.name("c"), one), "private", readonly=True)], trees.super_call(first, call), *body),
        trees.class_method("m", [string, trees.default(trees.name("second", "number"), one)], *body, trees.returned(call), ret="string"),
        trees.class_method("n", [trees.name("a")], *body, access="private"), trees.class_method("n", [], *body, access="private"),
        trees.class_method("size", [], *body, trees.returned(call), kind="Getter", ret="number"), trees.accessor("d", value=one),
        trees.prop("e", value=trees.array(one, first)), trees.index_signature("k", "string", "any"), trees.static_block(*body)]
    ambient = [trees.prop("a", "string"), trees.class_method("m", [string], body=False, ret="void")]
    return trees.lay_items([cases.public_class(*members, super_class=trees.ref("B")), cases.public_class(*ambient, name="D", declare=True)])


def imports_and_re_exports(number):
    """Imports and re-exports of modules of their own, of the packet of this number, with the sources."""
    sources = [f"./{letter}{number}" for letter in "abcdefghijklmnopqrst"]
    imports = [module_trees.import_(source, "x", module_trees.named_import("y", "z"), is_type=place % 2 == 1) for place, source in enumerate(sources[:16])]
    names = [module_trees.export("v", module_trees.named_export("w", "u"), src=source) for source in sources[16:18]]
    return imports + names + [module_trees.export_all(source) for source in sources[18:]], sources


def modules(size):
    """A module of about `size` bytes like a library's: packets of imports, re-exports, a function and a class, with the graph that resolves the sources.
    Of the specifiers the first is public, and ten thousand imports come to fifteen megabytes."""
    bodies, bodies_text = trees.lay_items(functions()[0][:1] + classes()[0][:1])
    body, ranges, resolutions, place, length, number = [], [], [], 0, 0, 0
    while length < size:
        made, sources = imports_and_re_exports(number)
        items, text = trees.lay_items(made)
        items += [moved(item, len(text) + 1) for item in bodies]
        body += [moved(item, place) for item in items]
        resolutions += [["file:///p/mod.ts", source, f"file:///p/{source[2:]}.ts"] for source in sources]
        place, length, number = place + len(text) + len(bodies_text) + 2, length + len(json.dumps(items, separators=(",", ":"))), number + 1
    for item in body:
        ranges += ranges_of_item(item, hidden=(1,))
    return dict(request(body, place, ranges), graph={"modules": [], "resolutions": resolutions, "packages": []})


def symbols(size):
    """A module of about `size` bytes of statements of one declarator each, with a table of a symbol for each, which the next one mentions. Ten thousand
    of them come to seven megabytes."""
    body, ranges, table, ids, place = [], [], [], [], 1
    length = 0
    while length < size:
        number = len(body) + 1
        item = statement([declarator(number, place + 14, "items")], place, place + 40)
        span, name, before = [place + 14, place + 34], f"x{number}", f"x{number - 1}"
        node = {"has_export_keyword": True, "deps": [[{"Id": [before, 2]}, "Both"]] if number > 1 else []}
        symbol = {"id": number, "parent_id": 0, "maybe_name": name, "qualified_name": name, "exports": [], "members": [],
                  "decls": [{"range": span, "value": True, "type_": False, "has_overloads": False, "has_body": False, "kind": {"Definition": node}}]}
        length += len(json.dumps([item, symbol], separators=(",", ":")))
        body.append(item), ranges.append(span), table.append(symbol), ids.append([[name, 2], number])
        place += 200
    module_symbol = {"id": 0, "exports": [[entry[0][0], entry[1]] for entry in ids], "members": [], "decls": []}
    made = request(body, place, ranges)
    made["module"].update(symbols=[module_symbol, *table], module_symbol=0, swc_ids=ids)
    return made


def moved(node, by):
    """A tree that stands further on in the text."""
    if isinstance(node, dict):
        return {field: [place + by for place in part] if field in ("span", "dot3_token") else moved(part, by) for field, part in node.items()}
    return [moved(part, by) for part in node] if isinstance(node, list) else node


def module_of_items(items, text, size):
    """A module of about `size` bytes of these items again and again, all of which are public."""
    step, body, ranges = len(text) + 1, [], []
    for number in range(max(1, size // len(json.dumps(items, separators=(",", ":"))))):
        body += [moved(item, number * step) for item in items]
    for item in body:
        export = item["ModuleDecl"]["ExportDecl"]
        ranges += [decl["span"] for decl in export["decl"]["Var"]["decls"]] if "Var" in export["decl"] else [export["span"]]
    return request(body, body[-1]["ModuleDecl"]["ExportDecl"]["span"][1], ranges)


def module(shape, size):
    """A module of about `size` bytes: a statement for each declarator (`items`), one statement for all (`wide`), values
    nested deep behind written types (`deep`), `functions`, `classes`, a library's items with a graph (`modules`), or statements with a table of
    their symbols (`symbols`). Every second declarator of the first three is public."""
    if shape == "symbols":
        return symbols(size)
    if shape == "modules":
        return modules(size)
    if shape in ("functions", "classes"):
        return module_of_items(*(functions() if shape == "functions" else classes()), size)
    one = len(json.dumps(statement([declarator(100000, 5000000, shape)], 4999990, 5000030)))
    count = max(1, size // one)
    ranges, declarators, place = [], [], 1
    for index in range(count):
        declarators.append(declarator(index, place + 14, shape))
        if index % 2 == 0:
            ranges.append([place + 14, place + 34])
        place += 200
    if shape == "wide":
        body = [statement(declarators, 1, place)]
    else:
        body = [statement([d], d["span"][0] - 14, d["span"][1] + 1) for d in declarators]
    return request(body, place, ranges)


def request(body, end, ranges):
    source = {"media_type": "TypeScript", "text": "", "program": {"Module": {"span": [1, end], "body": body, "shebang": None}},
              "comments": {"leading": [], "trailing": []}, "unresolved_context": 1}
    module = {"specifier": "file:///p/mod.ts", "source": source, "module_symbol": 0, "symbols": [{"id": 0}]}
    return {"graph": {"modules": [], "resolutions": [], "packages": []}, "module": module, "ranges": ranges, "impls": [], "first": False}


def library_seconds(text):
    """The processor seconds that the JSON library takes to read a text and to print it again, at best of three times. Python collects no garbage
    meanwhile: that would count the interpreter's own walk over the value."""
    found = []
    for _ in range(3):
        gc.collect()
        gc.disable()
        begun = time.process_time()
        DUMP(LOAD(text))
        found.append(time.process_time() - begun)
        gc.enable()
    return min(found)


def node_seconds(text):
    """The processor seconds that Node's JSON.parse and JSON.stringify take over a text, None where there is no Node."""
    if not shutil.which("node"):
        return None
    script = os.path.join(os.path.dirname(os.path.abspath(__file__)), "node_json.js")
    return float(subprocess.run(["node", script], input=text, stdout=subprocess.PIPE, check=True).stdout)


def columns(size, seconds, held, text):
    """The figures of a run on a text of so many bytes, beside those of the JSON libraries."""
    library, node = library_seconds(text), node_seconds(text)
    beside = f"{node:10.3f}" if node is not None else f"{'-':>10}"
    return f"{size / 1e6:8.2f} {seconds:9.3f} {held / 1e6:9.0f} {held / size:14.1f} {library:18.3f} {beside} {seconds / library:7.2f}"


COLUMNS = f"   MB in   seconds   MB peak   bytes a byte   {NAME} load+dump  node JSON   ratio"


def main(words):
    """The sizes in megabytes, and behind them a program."""
    program = program_path(words.pop() if words and not words[-1].isdigit() else programs.transform())
    sizes = [int(word) for word in words] or [1, 2, 5, 10, 20]
    print(f"shape    {COLUMNS}")
    for shape in ("items", "wide", "deep", "functions", "classes", "modules", "symbols"):
        for size in sizes:
            made = module(shape, size * 1000000)
            count, status, seconds, held = spent(program, made, "transform")
            if status != 0:
                sys.exit(f"status {status} on {shape} of {size} MB")
            print(f"{shape:9} {columns(count, seconds, held, json.dumps(made, separators=(',', ':')).encode())}", flush=True)


if __name__ == "__main__":
    main(sys.argv[1:])
