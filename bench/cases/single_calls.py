"""The parts of `fast_check_vectors` that are single calls: for each what it reads, by the names of files, and what it must print.

The worlds are answered by `package_rules`, forms by `forms`, caches by `cache_cases`, builds with caches by `cached_builds`, and the calls of a
transformer by the answers of the runs of the same requests, which `vectors` makes. What the others print is stated by hand in the files of
`stated/`; those of names and places repeat the lines that they read.
"""
import copy
import json
import os
import sys

from bench.cases import search_cases  # which adds to the worlds
from bench.cases import cache_cases, cached_builds, forms
from bench.cases.runs import EXAMPLES, FILES, Module, keyword, line
from bench.cases.worlds import CASES as WORLDS
from bench.check import packages
from bench.oracle import diagnostics

STATED = os.path.join(os.path.dirname(os.path.abspath(__file__)), "stated")


def stated(part):
    with open(os.path.join(STATED, part)) as file:
        return file.read()


def repeated(part):
    """A part whose output repeats each line that is read, and tells of it in lines that are indented."""
    printed = stated(part)
    return {part: "".join(line + "\n" for line in printed.splitlines() if not line.startswith("    "))}, printed


# ---- a transformer that is called twice, without and with the option that answers the first fault alone


def shown(fault, text):
    """What is reported of a diagnostic that the transform finds."""
    (start, end), size = fault["range"], len(text.encode())
    said = diagnostics.ROWS[fault["code"]].range
    description = f'Some("{said}")' if said else "None"
    return [f"    refused: {fault['code']}", f"      location: {start} of {fault['specifier']}, which has {size} bytes",
            f"      snippet: {start} to {end} of {size} bytes: {description}", f"      description: {description}, mended: false",
            f"      prints as: {fault['message']}"]


def kept(faults):
    return "    kept:" + "".join(f" {fault['code']} at {fault['range'][0]}" for fault in faults)


def called(answer):
    """What two calls print without the option: the module, beside which all that is wrong is kept."""
    return ["    a module", kept(answer.get("Err", ()))] * 2


def called_for_first(answer, text):
    """What two calls print with the option: the first that is wrong in place of the module, and nothing is kept."""
    if "Ok" in answer:
        return called(answer)
    return [*shown(answer["Err"][0], text), kept(())] * 2


def transformers(runs):
    """Calls on a module with three faults, one without, and for each kind of fault a module that has it, with as few faults and as little text as there is.
    `runs` has for each name of a request the answer, by all faults, and the source text."""
    size = lambda name: (len(runs[name][0]["Err"]), len(runs[name][1]), name)
    kinds = {}
    for name, (answer, text) in runs.items():
        for code in {fault["code"] for fault in answer.get("Err", ()) if fault["range"][1] <= len(text.encode()) + 1}:
            kinds[code] = min(kinds.get(code, name), name, key=size)
    names = ["all_faults", "both_public", *sorted(set(kinds.values()))]
    lines = []
    for name in names:
        answer, text = runs[name]
        lines += [name + ".json", "  all", *called(answer), "  the first alone", *called_for_first(answer, text), ""]
    return {"transformers": "".join(f"{name}.json\n" for name in names)}, "\n".join(lines) + "\n"


# ---- trees that are nested deeper than JSON is read


# how many parentheses stand around the value, and of how many arrays the written type is
DEPTHS = [(0, 0), (1, 1), (500, 0), (1000, 0), (0, 1000), (1000, 1000)]


def array_type(arrays):
    """The type of so many arrays of numbers, each at the value."""
    made = keyword("TsNumberKeyword", [18, 19])
    for _ in range(arrays):
        made = {"TsArrayType": {"span": [18, 19], "elem_type": made}}
    return made


def deep():
    """Values in parentheses, which show the type of what stands in them, and written types, which stay."""
    sys.setrecursionlimit(10_000)
    module = Module().variable("const", "x", "1")
    lines = []
    for parentheses, arrays in DEPTHS:
        made = copy.deepcopy(module.answer()["Ok"]["program"])
        if arrays:
            named = made["body"][0]["ModuleDecl"]["ExportDecl"]["decl"]["Var"]["decls"][0]["name"]["Ident"]
            named["type_ann"] = {"span": [18, 19], "type_ann": array_type(arrays)}
        lines += [f"{parentheses} {arrays}", "    " + line(made).rstrip("\n"), "    its copy is equal to it: true"]
    depths = "".join(f"{parentheses} {arrays}\n" for parentheses, arrays in DEPTHS)
    return {"deep": depths, "deep.json": line(module.request())}, "\n".join(lines) + "\n"


# ---- worlds


def worlds():
    for world in WORLDS:
        said = "answer" in world and packages.judged({key: part for key, part in world.items() if key != "answer"}, world["answer"])[0]
        if said:
            raise SystemExit(f"{world['name']}: the stated answer is that of no account: {said}")
    requests = [{key: part for key, part in world.items() if key != "answer"} for world in WORLDS]
    lines = [line for world, request in zip(WORLDS, requests) for line in (world.get("answer") or packages.answered(request))]
    lines.append(f"worlds with calls that were refused: {sum(map(packages.asks_provider, requests))}")
    return {"worlds": "".join(json.dumps(packages.request_of(request)) + "\n" for request in requests)}, "".join(line + "\n" for line in lines)


def built():
    """What is printed of `build_hello.json`: the answer that the run of this request has too."""
    return FILES[os.path.join(EXAMPLES, "build_hello.answer.json")].decode()


def parts(runs):
    """For each part, in order, its files and what it prints."""
    made, printed = forms.part()
    return [({}, built()), ({}, stated("example")), ({}, stated("versions")), cache_cases.part(), cached_builds.part(), ({"forms": made}, printed), repeated("names"), repeated("places"),
            ({}, stated("unfound")), ({}, stated("faults")), worlds(), transformers(runs),
            deep()]
