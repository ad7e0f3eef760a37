#!/usr/bin/env python3
"""Says which names stand twice in the workspace: two public types of one name, or two public functions that are no methods.

usage: names.py [--all]    status 1 if any does; with --all also names of cases, which nobody stands on, and behind them each
                           other name that is declared twice, within a crate or in two

A name is public where a crate hands it out: it is declared `pub` in the crate's root, in a module that is `pub`, or named in
a `pub use` of that root. What a crate hands on from another is the same item, and counts once. With --all a name counts by its
declarations too, `pub` or `pub(crate)`, whether a root hands it out or not: this list changes no status.
"""
import re
import sys
from collections import defaultdict
from pathlib import Path

TOP = Path(__file__).resolve().parents[2]
ITEM = re.compile(r"^pub (?:const )?(struct|enum|trait|type|fn) (\w+)", re.M)
DECLARED = re.compile(r"^pub(?:\(crate\))? (?:const )?(struct|enum|trait|type|fn) (\w+)", re.M)
CASES = re.compile("_cases$|_example$|_vectors$")


def handed_out(root):
    """The modules that a crate's root hands out whole, and the names that it hands out one by one."""
    modules = set(re.findall(r"^pub mod (\w+);", root, re.M))
    used = re.findall(r"^pub use ([^;]+);", root, re.M)
    names = {name for text in used for name in re.findall(r"\w+", re.sub(r"\w+::", "", text))}
    modules |= {it[0] for text in used for it in re.findall(r"(?:crate::|self::)?(\w+)::\*", text)}
    return modules, names


def public_items(crate):
    """The types and functions that a crate declares and hands out: kind and name of each, with its file."""
    root = crate / "src/lib.rt"
    if not root.is_file():
        return
    modules, names = handed_out(root.read_text())
    for file in sorted(crate.glob("src/**/*.rt")):
        first = file.relative_to(crate / "src").with_suffix("").parts[0]
        for kind, name in ITEM.findall(file.read_text()):
            if file == root or first in modules or name in names:
                yield "function" if kind == "fn" else "type", name, file.relative_to(TOP)


def declared_items(crate):
    """The types and functions that any module of a crate declares for others: kind and name of each, with its file."""
    for file in sorted(crate.glob("src/**/*.rt")):
        for kind, name in DECLARED.findall(file.read_text()):
            yield "function" if kind == "fn" else "type", name, file.relative_to(TOP)


def by_declaration(crates, handed):
    """Lists the names with more than one declaration, but for those that were listed before."""
    found = defaultdict(list)
    for crate in crates:
        for kind, name, file in declared_items(crate):
            found[kind, name].append(file)
    twice = {it: files for it, files in found.items() if len(files) > 1 and it not in handed}
    for (kind, name), files in sorted(twice.items()):
        print(f"declared {kind} {name}: {', '.join(map(str, files))}")
    print(f"{sum(map(len, found.values()))} declarations of {len(found)} names, {len(twice)} others that stand twice")


def main(words):
    found = defaultdict(list)
    crates = [it for it in sorted((TOP / "crates").iterdir()) if "--all" in words or not CASES.search(it.name)]
    for crate in crates:
        for kind, name, file in public_items(crate):
            found[kind, name].append(file)
    twice = {it: files for it, files in found.items() if len({file.parts[1] for file in files}) > 1}
    for (kind, name), files in sorted(twice.items()):
        print(f"{kind} {name}: {', '.join(map(str, files))}")
    types = sum(kind == "type" for kind, _ in found)
    print(f"{types} types and {len(found) - types} functions in {len(crates)} crates, {len(twice)} names that stand twice")
    if "--all" in words:
        by_declaration(crates, twice)
    return int(bool(twice))


if __name__ == "__main__":
    sys.exit(main(sys.argv[1:]))
