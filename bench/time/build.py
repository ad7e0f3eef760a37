"""Times `fast-check build` on workspaces of growing size.

For each shape and size it prints the input's megabytes, the modules that are answered, the program's processor seconds and peak memory, the processor
seconds that a JSON library of Python (orjson, or json where that isn't there) takes to load and dump the same text, those of Node's JSON (where there
is a Node), and the program's ratio to the first.
The program has to be built: run `./fast-check build examples/build_hello.json` once.

    packages   packages of three modules, each of which asks for two other packages
    modules    one package of all modules
    faults     packages as above, each with a module that has faults
    hidden     packages as above, of whose modules the entry points ask for two names alone, so that two modules are answered beside each entry point
    names      one package of two modules: a declaration of the one asks by import types for so many names of the other as PACKAGES says

The program lends no cache. With a driver that does (`bench/time/driver.sh builds DRIVER`) it prints the seconds of a build without a cache, of one that fills
an empty cache, and of one with the filled cache, all without reading and printing.

Usage: python3 -m bench build [SHAPE ..] [PACKAGES ..] [modules=N] [PROGRAM]        (all shapes, 10 100 1000 and three modules a package where nothing is given;
                                                                                  of `names` 8000 16000 100000)
       python3 -m bench build cached=DRIVER [SHAPE ..] [PACKAGES ..] [modules=N]    (the shape `packages`, and 10 100 1000)
"""
import json
import os
import subprocess
import sys
import tempfile

from bench.check import tables
from bench.check.growth import spent
from bench.check.program_path import program_path
from bench.oracle.build_worlds import Module, World
from bench.oracle.items import ONE, const, func, if_
from bench.oracle.module_trees import export, export_all, import_, interface, named_export, named_import, property_signature
from bench.oracle.package_worlds import HOST
from bench.oracle.programs import fast_check
from bench.oracle.trees import (
    array, array_of, binary, call, class_method, class_stmt, constructor, declarator, default, exported, fn_stmt, hash_prop, lit, name, named, param_prop, prop,
    ref, returned, run, type_params, unexported, union, var_stmt,
)
from bench.time.transform import COLUMNS, LOAD, columns

PROGRAM = fast_check()
SHAPES = ["packages", "modules", "faults", "hidden", "names"]
SIZES = {"names": [8_000, 16_000, 100_000]}


def library(*more):
    """A module like those of a library: imports, interfaces, a class, functions and constants, of which an entry point asks for some, and helpers."""
    text, point, group = name("text", "string"), named("Point"), named("Group")
    body = [var_stmt("Const", declarator("made", call(ref("helper"), ref("text")))), if_(ref("made"), run(call(ref("log"), ref("made")))),
            var_stmt("Let", declarator("sum", binary(ref("made"), "+", ONE)))]
    members = [hash_prop("cache", value=array(ONE)), prop("size", value=ONE), prop("label", "string", lit('"a"'), readonly=True),
               prop("state", value=ONE, access="private"),
               constructor([text, param_prop(default(name("options", named("Options")), ref("defaults")), "private")], *body),
               class_method("add", [name("point", point)], *body, returned(ref("sum")), ret="number"),
               class_method("all", [], *body, returned(call(ref("helper"))), ret=array_of(point)),
               class_method("reset", [name("hard")], *body, access="private"),
               class_method("of", [text], *body, returned(ref("text")), ret=group, static=True)]
    return Module(
        "p/mod.ts", import_("./next", named_import("Shape", "Figure"), named_import("Style", "Look", is_type=True)), import_("./next", named_import("trace", "log")),
        exported(interface("Point", property_signature("x", "number"), property_signature("y", "number"))),
        exported(interface("Options", property_signature("look", named("Look")), property_signature("shapes", array_of(named("Figure"))))),
        unexported(var_stmt("Const", declarator("defaults", call(ref("helper"))))),
        exported(class_stmt("Group", *members)),
        func("draw", [name("group", group), default(name("width"), ONE), default(name("name"), lit('"a"'))], *body, returned(ref("sum")), ret="string"),
        func("each", [name("items", array_of(union(point, "string")))], *body, generics=type_params("T")),
        const("version", lit('"1.0.0"')), const("limits", array(ONE, lit("2"), lit("3"))),
        unexported(fn_stmt("helper", [name("text")], *body, returned(ref("sum")))),
        exported(interface("Shape", property_signature("points", array_of(point)))), exported(interface("Style", property_signature("color", "string"))),
        func("trace", [name("value", "string")], *body), *more)


def entry(re_exports):
    """An entry point with these re-exports, and a function whose types are those of other packages."""
    return Module("p/mod.ts", import_("@next", "Point", "draw"), import_("@other", named_import("Options", is_type=True)), *re_exports,
                  func("main", [name("at", named("Point")), name("options", named("Options"))], run(call(ref("draw"), ref("at"))), returned(ref("at")),
                       ret=named("Point")))


def by_name(place):
    return export(named_export("Group", f"Group{place}"), named_export("draw", f"draw{place}"), src=f"./{place}")


def re_exports(shape, size):
    """The re-exports of an entry point with so many modules."""
    if shape == "hidden":
        return [by_name(1)]
    return [by_name(place) if shape == "modules" else export_all(f"./{place}") for place in range(1, size)]


def standing_at(module, url):
    """The parts of a module, as of one at this URL."""
    parts = module.parts()["Esm"]
    return [url, {"Esm": {**parts, "specifier": url, "resolved_exports": [[each, url] for each, _ in parts["resolved_exports"]]}}]


def names_of_a_module(count):
    """A request in which one declaration asks by import types for so many names of another module, which all stand for one symbol of it."""
    names = [f"id{place}" for place in range(count)]
    asks = tables.definition(*(tables.import_type(tables.url(1), name) for name in names))
    return tables.request(tables.module(tables.url(0), [tables.symbol(1, asks)], [["s1", 1]]),
                          tables.module(tables.url(1), [tables.symbol(1, tables.definition())], [[name, 1] for name in names]))


def workspace(shape, packages, size):
    """A request of so many packages of so many modules each, or of one package of as many modules."""
    if shape == "names":
        return names_of_a_module(packages)
    count, size = (1, packages * size) if shape == "modules" else (packages, size)
    faults = [func("wrong", [name("a")], returned(ONE)), func("also", [], returned(ONE))] if shape == "faults" else []
    main, first, other = entry(re_exports(shape, size)), library(*faults), library()
    made = World({}, pending=[]).request()
    base = lambda p: f"{HOST}p{p % count}/"
    for p in range(count):
        url, nv = base(p), f"@p/p{p}@1.0.0"
        made["graph"]["packages"].append([nv, [[".", "./mod.ts"]]])
        made["provider"]["packages"].append([nv, url])
        made["modules"].append(standing_at(main, url + "mod.ts"))
        texts = [[f"./{place}", f"{url}{place}.ts"] for place in range(1, size)] + [["@next", base(p + 1) + "1.ts"], ["@other", base(7 * p + 3) + "2.ts"]]
        made["graph"]["resolutions"] += [[url + "mod.ts", text, to] for text, to in texts]
        for place in range(1, size):
            made["modules"].append(standing_at(first if place == 1 else other, f"{url}{place}.ts"))
            made["graph"]["resolutions"].append([f"{url}{place}.ts", "./next", f"{url}{place % (size - 1) + 1}.ts"])
    made["graph"]["modules"] = [[url, {"Js": {"media_type": "TypeScript"}}] for url, _ in made["modules"]]
    made["pending"] = [f"@p/p{p}@1.0.0" for p in range(count if shape == "hidden" else 1)]
    return made


def answers_of(program, made):
    """What a run answers."""
    with tempfile.NamedTemporaryFile("w", suffix=".json") as file:
        json.dump(made, file, separators=(",", ":"))
        file.flush()
        ran = subprocess.run([program, "build", file.name], stdout=subprocess.PIPE)
        return LOAD(ran.stdout) if ran.returncode in (0, 1) else sys.exit(f"status {ran.returncode}")


def measure(program, shape, packages, modules):
    made = workspace(shape, packages, modules)
    shown = sum("Ok" in answer for _, answer in answers_of(program, made))
    size, _, seconds, held = spent(program, made)
    count = 2 if shape == "names" else packages * modules
    figures = columns(size, seconds, held, json.dumps(made, separators=(",", ":")).encode())
    print(f"{shape:9} {packages:8} {count:8} {shown:9} {figures}", flush=True)


def measure_cached(driver, shape, packages, modules):
    with tempfile.TemporaryDirectory() as room:
        with open(os.path.join(room, "cases"), "w") as file:
            json.dump(workspace(shape, packages, modules), file)
        told = [line.split() for line in subprocess.run([driver], cwd=room, stdout=subprocess.PIPE, text=True, check=True).stdout.splitlines()]
    plain, empty, filled = (min(int(micros) for word, _, micros in told if word == wanted) / 1e6 for wanted in ("plain", "empty", "filled"))
    print(f"{shape:9} {packages:8} {packages * modules:8} {plain:9.3f} {empty:9.3f} {filled:9.3f}", flush=True)


def main(words):
    shapes, sizes = [word for word in words if word in SHAPES], [int(word) for word in words if word.isdigit()]
    modules = [int(word.removeprefix("modules=")) for word in words if word.startswith("modules=")]
    drivers = [os.path.abspath(word.removeprefix("cached=")) for word in words if word.startswith("cached=")]
    if drivers:
        print("shape     packages  modules   without     empty    filled")
        for shape in shapes or ["packages"]:
            for packages in sizes or [10, 100, 1000]:
                measure_cached(drivers[0], shape, packages, (modules + [3])[0])
        return
    others = [word for word in words if word not in SHAPES and not word.isdigit() and not word.startswith("modules=")]
    program = program_path((others + [PROGRAM])[0])
    print(f"shape     packages  modules  answered {COLUMNS}")
    for shape in shapes or SHAPES:
        for packages in sizes or SIZES.get(shape, [10, 100, 1000]):
            measure(program, shape, packages, (modules + [3])[0])


if __name__ == "__main__":
    main(sys.argv[1:])
