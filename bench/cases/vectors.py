"""Writes what `crates/fast_check_vectors` reads (`data/`), and what it must print (`stdout`): runs of the program, and single calls (`single_calls`).

Most runs stand in the folders beside this script as TypeScript, with what has to come out (`case_files`); their trees are those that tools/typescript reads.
Trees that no text is read as, and odd tables, are made by Python (`odd_cases`, `odd_builds`, `comment_runs`, `refused_runs`, `hostile_cases`). What a skeleton has to be follows
from the rules of `bench/oracle` alone: the program's own output is nowhere taken for right.

Usage: python3 -m bench vectors             writes them. What the installed TypeScript does not read is taken as it is stored
       python3 -m bench vectors --check     compares them with what is stored, and names what differs
"""
import os
import sys

from bench.cases import build_files, hostile_cases, odd_builds, odd_cases, pair_cases, single_calls
from bench.cases.case_files import HERE, SOURCES, Folder, text_of
from bench.cases.comment_runs import comments
from bench.cases.refused_runs import defaults, refusals, with_tables
from bench.cases.runs import (
    CASES, CRATE, DATA, DOCS, FILES, NO_GRAPH, RUNS, SPECIFIER, STDOUT, answered, case, line, module_answer, program, put, put_example, request, title,
)
from bench.oracle.diagnostics import diagnostic
from bench.oracle.programs import TOP
from bench.oracle.ranges import public_ranges, ranges_of_members, ranges_within
from bench.oracle.skeletons import Skeleton
from bench.oracle.trees import lay_items

# ---- functions and values of all forms: what is stated by hand has to agree with what the rules give


def stated(fault, text):
    """A fault in words, with the text of its range and with its positions."""
    code, (start, end), is_definitely, is_async = fault
    words = {"missing-explicit-type": "type", "missing-explicit-return-type": "return", "unsupported-destructuring": "destructuring",
             "unsupported-super-class-expr": "superclass", "unsupported-default-export-expr": "default", "unsupported-using": "using",
             "unsupported-require": "require", "unsupported-ts-export-assignment": "assignment", "unsupported-ts-namespace-export": "namespace",
             "unsupported-expando-property": "expando", "unsupported-global-module": "global", "unsupported-ambient-module": "ambient"}[code]
    if code == "unsupported-expando-property":
        return {f"expando {is_definitely} {is_async} {start}-{end}"}
    words += " definitely" * bool(is_definitely) + " async" * bool(is_async)
    return {f"{words} {text.encode()[start - 1:end - 1].decode()}", f"{words} {start}-{end}"}


def levels(value):
    inner = value.values() if isinstance(value, dict) else value if isinstance(value, list) else None
    return 0 if inner is None else 1 + max(map(levels, inner), default=0)


def agree(name, what, stated_by_hand, given):
    if stated_by_hand != given:
        sys.exit(f"{name}: the {what} is stated as\n  {stated_by_hand}\nand given as\n  {given}")


def documented(at):
    """Documentation before the tokens at these positions."""
    return [[place, [{"kind": "Block", "span": [place, place + 9], "text": "* doc "}]] for place in at]


def graph_of(case, specifier):
    """The graph in which the texts of a case's sources are resolved."""
    if "graph" in case.more:
        return case.more["graph"]
    resolved = case.more.get("resolved")
    return {**NO_GRAPH, "resolutions": [[specifier, text, url] for text, url in (resolved or {}).items()]}


def laid_out(case):
    """The request of a case, and its answer, which has to be the one that is stated."""
    if case.program is None:
        case.items, case.text = lay_items(case.items)
        case.program = program(case.items, case.text)
    text, more, specifier = case.text, case.more, case.more.get("specifier", SPECIFIER)
    media_type, first = more.get("media_type", "TypeScript"), more.get("first", False)
    ranges = public_ranges(case, [place for place in range(len(case.items)) if place not in case.private], case.own_ranges)
    ranges += ranges_within(case)
    impls = public_ranges(case, case.implementations) + ranges_of_members(case)
    made = Skeleton(case.items, ranges, impls, media_type, specifier=specifier, resolved=more.get("resolved"),
                    plain_classes=more.get("plain_classes", ()), exports=more.get("exports"), keyworded=more.get("keyworded", ()))
    faults = made.faults[:1] if first else made.faults
    if "stays" in more:
        case.expected, given = [case.items[place] for place in more["stays"]], made.items
    else:
        given = [stated(fault, text) for fault in faults] if faults else lay_items(made.items)[1]
    if isinstance(case.expected, list) and faults and len(given) == len(case.expected):
        given = [wanted if wanted in found else found for wanted, found in zip(case.expected, given)]
    agree(case.name, "answer", case.expected, given)
    content = request(text, case.items, ranges, media_type, impls=impls, first=first, graph=graph_of(case, specifier))
    content["module"]["specifier"] = specifier
    with_tables(content, **more.get("tables", {}))
    content["module"]["source"]["program"] = {"Script" if more.get("is_script") else "Module": case.program}
    if "levels" in more:
        agree(case.name, "depth", more["levels"], levels(content))
    answer = {"Err": [diagnostic(fault, specifier, DOCS) for fault in faults]} if faults else {"Ok": module_answer(dict(case.program, body=made.items))}
    if "sources" in more:
        agree(case.name, "sources", more["sources"], told_sources(answer, text))
    if "comments" in more:
        at, stay = [at for at, _ in more["comments"]], [at for at, stays in more["comments"] if stays]
        trailing = [] if more.get("are_leading") else documented(at)
        content["module"]["source"]["comments"] = {"leading": documented(at), "trailing": trailing}
        answer["Ok"]["comments"] = {"leading": documented(stay), "trailing": trailing}
    return content, answer


def told_sources(answer, text):
    """The sources of an answer in words: what they are, and the text of their ranges."""
    found = []
    for source in answer["Ok"]["module_info"]["sources"]:
        start, end = source["range"]
        words = "export " * source["is_export"] + "type " * source["type_only"]
        found.append(f"{words}{source['specifier']} at {text.encode()[start - 1:end - 1].decode()}")
    return found


def transform_cases(folder):
    """Each group of cases of a folder, with what it shows."""
    for words, cases in folder.cases():
        title(words)
        for case in cases:
            answered(case.name, *laid_out(case))


def builds(files):
    """Each group of builds, with what it shows."""
    for words, names in build_files.titles():
        title(words)
        for name in names:
            build(name, files.get(name) or odd_builds.CASES[name])


def build(name, each):
    """A run of a build, whose answer has to be the one that is stated."""
    if isinstance(each, odd_builds.Refused):
        put(f"{name}.json", each.content)
        case(f"build {name}.json", 2, f"error: input refused: {each.word}\n")
        return
    answers = each.world.answers(DOCS, getattr(each, "without", None))
    agree(name, "answer", each.expected, odd_builds.given(each.world, answers, lambda items: lay_items(items)[1]))
    put(f"{name}.json", each.request or each.world.request())
    case(f"build {name}.json", int(any("Err" in answer for _, answer in answers)), line(answers))
    if name in odd_builds.EXAMPLES:
        put_example(name, name, answers)


def hostile_builds():
    """Builds of hostile tables."""
    title("hostile tables: rings, chains, long paths, names that come twice")
    for name, made, answers in hostile_cases.runs():
        put(f"{name}.json", made)
        is_refused = isinstance(answers, str)
        case(f"build {name}.json", 2 if is_refused else 0, f"error: input refused: {answers}\n" if is_refused else line(answers))


def commands():
    """Runs of `commands.txt`: lines of what is said and of the status, and the words that the program is given."""
    said = {"usage": "usage: fast-check (build|transform|pair) FILE\n", "output": "error: output refused\n", "silent": ""}
    for line in text_of(os.path.join(HERE, "commands.txt")).split("\n"):
        if line.startswith("# "):
            title(line[2:])
            continue
        (word, status), words = (part.split() for part in line.split(":", 1))
        case(" ".join(words), int(status), said.get(word, f"error: input refused: {word}\n"), is_told=word != "silent")


def make():
    """Makes all files."""
    folders = {name: Folder(name, odd_cases.CASES) for name in ("variables", "functions", "new", "returns", "values", "classes", "modules", "namespaces", "expandos")}
    pairs, files = Folder("pairs", {}), build_files.files()
    build_files.files("cached")
    transform_cases(folders.pop("variables"))
    comments()
    for folder in folders.values():
        transform_cases(folder)
    defaults()
    refusals()
    builds(files)
    hostile_builds()
    pair_cases.pairs(pairs, laid_out, agree)
    commands()
    put("cases", "".join(CASES).encode())
    for files, printed in single_calls.parts(RUNS):
        STDOUT.append(printed)
        for name, content in files.items():
            put(name, content.encode())
    put("stdout", "".join(STDOUT).encode(), CRATE)


def differing():
    """The files that are not there as they are made, and those that are there and not made."""
    for path, content in FILES.items():
        if not os.path.exists(path) or open(path, "rb").read() != content:
            yield path
    yield from (path for path in (os.path.join(DATA, name) for name in os.listdir(DATA)) if path not in FILES)


def main(arguments):
    if arguments not in ([], ["--check"]):
        print(__doc__, file=sys.stderr)
        return 2
    make()
    differ = list(differing())
    if arguments:
        for path in differ:
            print(f"{os.path.relpath(path, TOP)}: is stored otherwise")
    else:
        for path in differ:
            write(path)
    print(f"{sum(not text.startswith('#') for text in CASES)} cases, {SOURCES.told()}; {len(differ)} files {'differ' if arguments else 'written'}")
    return int(bool(arguments and differ))


def write(path):
    """Writes a file, or takes it away where it is none."""
    if path not in FILES:
        os.remove(path)
        return
    with open(path, "wb") as file:
        file.write(FILES[path])


if __name__ == "__main__":
    sys.exit(main(sys.argv[1:]))
