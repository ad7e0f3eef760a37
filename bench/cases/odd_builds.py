"""Runs of `fast-check build` that are refused (`changed/build.txt`), that leave members out, or that are many alike.

An answer is stated as pairs: a module by its word, and the TypeScript of its skeleton, or the list of what is wrong. A fault is stated by its code, the module,
and the text of its range where it has one: `missing-explicit-type p/u.ts a`.
"""
import json
from dataclasses import dataclass

from bench.cases.changed_requests import changed, sections
from bench.oracle.build_worlds import JsonModule, Module, World
from bench.oracle.items import ONE, THROW, const, func, let, put, unknown
from bench.oracle.module_trees import export, export_all, import_, named_export
from bench.oracle.package_worlds import HOST
from bench.oracle.trees import lit, returned


@dataclass
class Build:
    name: str
    world: World
    # pairs of words of modules with the text of a skeleton or a list of faults
    expected: list
    # the request, where it is not the world's as it is
    request: dict = None


@dataclass
class Refused:
    name: str
    content: object
    word: str = "bad-form"


def single(*items, **more):
    """One package of one module with these items."""
    return World({"p": ["./mod.ts"]}, Module("p/mod.ts", *(items or [let("x", value=ONE)])), **more)


SINGLE = [("p/mod.ts", "export let x: number = {} as never;")]


# ---- what is refused, and what may be left out


def of_modules(*words):
    """A world of these modules of one package, of which the first is the entry point."""
    made = {"d": JsonModule("p/d.json"), "other": Module("p/other.ts", let("y"))}
    modules = [made.get(word) or Module(f"p/{word}.ts", let("x", value=ONE)) for word in words]
    entry = next(word for word in words if word != "other")
    return World({"p": [f"./{entry}.json" if entry == "d" else f"./{entry}.ts"]}, *modules)


def requests():
    """The requests that are changed by lines of `changed/build.txt`, by their names."""
    follows = Module("p/mod.ts", import_("@q/q", "y"), export("y"), resolved={"@q/q": "q/mod.ts"})
    worlds = {
        None: single(), "expando": World({"p": ["./mod.ts"]}, Module("p/mod.ts", func("f", [], THROW), put("a", ONE))),
        "follows": World({"p": ["./mod.ts"], "q": ["http://["]}, follows, Module("q/mod.ts", let("y"))),
        "faulty": World({"p": ["./mod.ts", "./none.ts"], "q": ["http://["]}, Module("p/mod.ts", let("x")), pending=["p", "q"])}
    names = ("a", "a b", "a b c", "d", "mod d", "other mod", "mod other")
    return {"list": [], **{name: of_modules(*name.split()).request() for name in names}, **{name: world.request() for name, world in worlds.items()}}


def refused():
    of = requests()
    yield Refused("build_no_json", json.dumps(of[None]).encode()[:-1], "not-json")
    yield Refused("build_no_text", b"\xff", "not-json")
    for _, lines in sections("build.txt"):
        for name, word, base, changes in lines:
            yield Refused(name, changed(of[base], *changes), word)


def left_out():
    world = of_modules("other", "mod")
    world.parts["modules"][0][0] = HOST + "p/mod.ts"
    yield Build("build_the_last_module_of_a_name_counts", world, SINGLE)
    least = {"graph": {}, "provider": {"fallback": HOST}}
    for case, more in [("build_a_graph_and_a_provider_alone", {}),
                       ("build_members_that_are_passed_over", {"pending": ["@p/p@1.0.0"], "provider": {"fallback": HOST, "x": 1}, "x": [], "first": True})]:
        yield Build(case, World({}, pending=["p"] if "pending" in more else []), [], request={**least, **more})
    member = World({}, Module("file:///w/mod.ts", let("x")), members=[["@w/a", None, "file:///w/", []]], pending=["w/a"])
    request = member.request()
    request["workspace_members"] = [{"base": "file:///w/", "name": "@w/a"}]
    yield Build("build_a_member_of_base_and_name", member, [], request=request)


# ---- many packages


COUNT = 200


def word_of(number):
    return f"n{number:03}"


def of_many(number):
    """Each package exports all of the one before it, and a name of the one of half its number. One of twenty shows no type, and one of fifty no return type."""
    re_exports = [export_all(f"@{number - 1}"), export(named_export("v", "half"), src=f"@{number // 2}")] if number else []
    v = let("v") if number % 20 == 13 else func("v", [], returned(unknown())) if number % 50 == 7 else const("v", lit(str(number)))
    return Module(f"{word_of(number)}/mod.ts", *re_exports, v, resolved={f"@{each}": f"{word_of(each)}/mod.ts" for each in (number - 1, number // 2) if number})


def shown_of_many(number):
    url = f"{word_of(number)}/mod.ts"
    if number % 20 == 13 or number % 50 == 7:
        return url, [f"missing-explicit-{'type' if number % 20 == 13 else 'return-type'} {url} v"]
    re_exports = f'export * from "@{number - 1}"; export {{ v as half }} from "@{number // 2}"; ' if number else ""
    return url, f"{re_exports}export const v: {number} = {{}} as never;"


def many_packages():
    """The last package asks for all, by chains of all lengths. Some are handed in beside it."""
    world = World({word_of(number): ["./mod.ts"] for number in range(COUNT)}, *map(of_many, range(COUNT)), pending=map(word_of, [42, COUNT - 1, 57, 42]))
    yield Build("build_two_hundred_packages", world, [shown_of_many(number) for number in range(COUNT)])


CASES = {each.name: each for group in (refused, left_out, many_packages) for each in group()}


# the builds that stand in examples/ too
EXAMPLES = ["build_hello", "build_canvas"]


# ---- what is stated has to agree with what the rules give


def stated(fault, modules):
    """A fault in words."""
    text = next((module.text for module in modules if module.url == fault["specifier"]), None)
    words = [fault["code"], fault["specifier"].removeprefix(HOST)]
    if fault["range"]:
        start, end = fault["range"]
        words.append(text.encode()[start - 1:end - 1].decode())
    return " ".join(words)


def given(world, answers, text_of):
    """Answers as they are stated; `text_of` writes the items of a skeleton."""
    found = []
    for url, answer in answers:
        shown = [stated(fault, world.modules) for fault in answer["Err"]] if "Err" in answer else text_of(answer["Ok"]["program"]["body"])
        found.append((url.removeprefix(HOST), shown))
    return found
