"""The inputs of a comparison: stored runs, random ones, and packages of TypeScript."""
import copy
import itertools
import json
import os
import random
import subprocess
import sys
from pathlib import Path

TOP = Path(__file__).resolve().parents[2]
VECTORS = TOP / "crates/fast_check_vectors"
STEP = 500


def files_of(listed):
    """The lines of a list."""
    return [line for line in Path(listed).read_text().splitlines() if line] if listed else []


# ---- stored runs


def stored_files():
    """The inputs of all stored runs of a command with a file that is there, each once."""
    lines = [line.split() for line in (VECTORS / "data/cases").read_text(errors="surrogateescape").splitlines()]
    named = {words[1]: None for words in lines if len(words) == 2 and words[0] in ("transform", "build", "pair")}
    return [str(VECTORS / "data" / name) for name in named if (VECTORS / "data" / name).is_file()]


def cached_runs():
    """The runs of the part `cached_builds`, with the stored lines of each. A refused call of a cache means that memory runs out, which the original lacks."""
    printed = (VECTORS / "stdout").read_text(errors="surrogateescape")
    for line in (VECTORS / "data/cached_builds").read_text().splitlines():
        run = json.loads(line)
        lines = printed.split(f"\nrun {run['name']}\n", 1)[1].splitlines()
        end = next((place for place, each in enumerate(lines) if not each.startswith("  ")), len(lines))
        if "    out of memory" not in lines[:end] and "    invalid-export" not in lines[:end]:
            yield {**run, "times": run.get("times", 1) if len(run["builds"]) == 1 else 1}, lines[:end]


# ---- random inputs


def module_requests(seed, count):
    from bench.check.random_modules import Writer
    return (Writer(number).case()[0] for number in range(seed, seed + count))


def build_requests(seed, count):
    from bench.check.random_builds import Writer
    return (Writer(number).world().request() for number in range(seed, seed + count))


def pair_requests(seed, count):
    from bench.check.random_pairs import PairMaker
    made = (PairMaker(number).pair() for number in itertools.count(seed))
    return itertools.islice((pair[0] for pair in made if pair), count)


def world_requests(seed, count):
    """Worlds of packages without trees. Of an alias in a module of JSON the original follows nothing, and no analysis makes one: these are left out."""
    from bench.oracle.package_worlds import request_of, with_ranges
    from bench.check.random_packages import random_world
    source = random.Random(seed)
    for number in range(count):
        world = random_world(source, f"random-{seed}-{number}")
        yield showing_ranges(without_json_references(request_of(with_ranges(world))))


def without_json_references(request):
    for _, module in request["modules"]:
        for symbol in module.get("Json", {}).get("symbols", []):
            for decl in symbol.get("decls", []):
                decl["kind"] = {"Definition": None}
    return request


REQUESTS = {"modules": module_requests, "builds": build_requests, "pairs": pair_requests, "worlds": world_requests}


def random_inputs(kind, count, seed, folder):
    """The files of random inputs, some hundred at a time."""
    requests = REQUESTS[kind](seed, count)
    for start in range(0, count, STEP):
        files = []
        for number in range(start, min(start + STEP, count)):
            file = folder / f"{kind[:-1]}-{seed}-{number}.json"
            file.write_text(json.dumps(next(requests), ensure_ascii=False))
            files.append(str(file))
        yield files


# ---- trees that show ranges


def ranges_of(module):
    """All ranges that the finder may find in a module."""
    found = {tuple(decl.get("range", (0, 0))) for symbol in module.get("symbols", []) for decl in symbol.get("decls", [])}
    return sorted(found | {tuple(span) for span, _ in module.get("re_export_all_nodes", [])})


def shown(span):
    """A variable that a skeleton has where its range is public."""
    name = {"Ident": {"id": {"span": [0, 0], "ctxt": 0, "sym": "v", "optional": False}, "type_ann": None}}
    one = {"span": list(span), "name": name, "init": {"Lit": {"Num": {"span": [0, 0], "raw": "1"}}}, "definite": False}
    return {"Stmt": {"Decl": {"Var": {"span": [0, 0], "ctxt": 0, "kind": "Let", "declare": False, "decls": [one]}}}}


def showing_ranges(request):
    """A build in which each module has one variable for each range of its tables, so that the answer says which of them are public."""
    for _, choice in request["modules"]:
        if "Esm" in choice:
            body = [shown(span) for span in ranges_of(choice["Esm"])]
            choice["Esm"]["source"] = {**choice["Esm"]["source"], "program": {"Module": {"span": [0, 0], "body": body, "shebang": None}}}
    return request


# ---- packages


def package_input(directory, folder):
    """The input that fast-check-ts makes of a package by TypeScript's compiler; None where it makes none."""
    file = folder / f"{Path(directory).name}-{len(os.listdir(folder))}.json"
    with open(file, "wb") as out:
        done = subprocess.run([TOP / "fast-check-ts", "input", "--reader", "typescript", "--no-own-compiler", directory], stdin=subprocess.DEVNULL, stdout=out, stderr=subprocess.PIPE)
    if done.returncode or not file.stat().st_size or file.read_bytes().strip() == b"null":
        print(f"inputs.py: no input of {directory}: {done.stderr.decode()[:200].strip()}", file=sys.stderr)
        return None
    return str(file)


# ---- the runs of an input


def runs_of(file, folder, change=None):
    """The runs of an input, each with its name, its command, and the inputs of both programs. A pair is two runs of transform. `change` is a word: `deno`
    changes the input of the program, and `ranges` both."""
    name = Path(file).name.removesuffix(".json")
    try:
        value = json.loads(Path(file).read_bytes())
    except ValueError:
        return [(name, "transform", file, file)]
    if not isinstance(value, dict):
        return [(name, "transform", file, file)]
    if "a" in value and "b" in value and "module" not in value:
        return [run for side in "ab" for run in runs_of(side_file(value, side, name, folder), folder, change)]
    command = "build" if "provider" in value or "pending" in value else "transform"
    if change == "ranges" and command == "build":
        file = written(showing_ranges(value), f"{name}-ranges", folder)
    ours = without_single_returns(value, name, folder) if change == "deno" else file
    return [(name, command, ours, file)]


def side_file(pair, side, name, folder):
    """One module of a pair, as an input of transform."""
    lists = {key: pair.get(f"{key}_{side}", []) for key in ("ranges", "impls")}
    return written({"graph": pair.get("graph"), "module": pair[side], **lists, "first": pair.get("first", False)}, f"{name}-{side}", folder)


def written(value, name, folder):
    file = folder / f"{name}.json"
    file.write_text(json.dumps(value, ensure_ascii=False))
    return str(file)


# ---- without the types that a single return names


NAMING = ("Lit", "Tpl", "TsAs", "TsTypeAssertion")
BLOCKS = {
    "Block": lambda node: node.get("stmts", []),
    "With": lambda node: [node["body"]],
    "Labeled": lambda node: [node["body"]],
    "If": lambda node: [node["cons"], node.get("alt")],
    "Switch": lambda node: [stmt for case in node.get("cases", []) for stmt in case.get("cons", [])],
    "Try": lambda node: [stmt for block in tried(node) if block for stmt in block.get("stmts", [])],
    **{loop: lambda node: [node["body"]] for loop in ("While", "DoWhile", "For", "ForIn", "ForOf")},
}


def tried(node):
    return [node["block"], (node.get("handler") or {}).get("body"), node.get("finalizer")]


def count_returns(stmts):
    found = 0
    for kind, node in (pair for stmt in stmts if stmt for pair in stmt.items()):
        found += 1 if kind == "Return" else count_returns(BLOCKS[kind](node)) if kind in BLOCKS else 0
    return found


def names_type(value):
    (kind, node), = value.items()
    return names_type(node["expr"]) if kind in ("Paren", "TsSatisfies") else kind in NAMING


def hide_single_return(body):
    """In place of a value that names the type of a body stands one that names none."""
    last = (body.get("stmts") or [{}])[-1].get("Return") or {}
    if last.get("arg") and names_type(last["arg"]) and count_returns(body["stmts"]) == 1:
        last["arg"] = {"This": {"span": last.get("span", [0, 0])}}


def is_ambient(node):
    """Ambient code is shown as it stands, with the bodies that no source has there."""
    return node.get("declare") or node.get("media_type") in ("Dts", "Dmts", "Dcts")


def hide_single_returns(node, place=None):
    if isinstance(node, list):
        for each in node:
            hide_single_returns(each)
    elif isinstance(node, dict) and not is_ambient(node):
        if place in ("function", "Constructor", "Arrow") and node.get("body"):
            hide_single_return(node["body"].get("BlockStmt", node["body"]))
        for name, each in node.items():
            hide_single_returns(each, name)


def without_single_returns(value, name, folder):
    value = copy.deepcopy(value)
    hide_single_returns(value)
    return written(value, f"{name}-deno", folder)
