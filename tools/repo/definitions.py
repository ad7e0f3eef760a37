#!/usr/bin/env python3
"""Which definitions a reader has to believe: those that the contracts of the public calls cite, and what these stand on.

usage: definitions.py                 the chapters, each with its files, definitions and lines beyond the chapters before it
       definitions.py read CHAPTER    the files of one chapter in an order in which they can be read, with their definitions
       definitions.py mark            writes the first line of each file of definitions that no public contract reaches
       definitions.py check           says which files have that line and should not, or the other way round; status 1 if any
"""
import re
import sys
from functools import cache
from pathlib import Path

TOP = Path(__file__).resolve().parents[2]
CRATES = TOP / "crates"
INNER = "-- Inner: no contract of a public call cites what stands here."
# The calls whose contracts are the promises, by crate, or by module of a crate (`crate::module`) with the modules in it. None: every public function
# there. A crate, a module or a call that is not there ends the script.
CHAPTERS = {
    "transform": {"fast_check_transform_module": ["transform"], "fast_check_transform_pair::transformer": None, "fast_check_meaning_skeleton": ["hash_mark"]},
    "law": {"fast_check_meaning_skeleton": ["two_worlds", "hidden_changes", "hidden_items"], "fast_check_transform_pair": None,
            "fast_check_finder_unique": None, "fast_check_build_unique": None},
    "account": {"fast_check_build": ["find_public_ranges", "find", "new"], "fast_check_finder_ranges": ["entry_order"]},
    "build": {
        "fast_check_build": None, "fast_check_build_answers": None, "fast_check_tables_cache::cache": None, "fast_check_tables_cache::item": None,
        "fast_check_tables_cache::package_ranges": None, "fast_check_tables_packages::fault": None, "fast_check_tables_packages::listed": None, "fast_check_tables_packages::provider": None,
    },
    "tables": {
        "fast_check_finder_lattice": None, "fast_check_tables_packages::package": None, "fast_check_tables_diagnostics": None,
        "fast_check_tables_symbols": None, "fast_check_tables_modules": None,
        "fast_check_tables_graph": None, "fast_check_tree_comments": None, "fast_check_tree_syntax": None, "fast_check_tree_helpers": None,
    },
    "json": {
        "fast_check_read": None, "fast_check_print::comments": None, "fast_check_print::pieces": None, "fast_check_print::tree": None,
        "fast_check_json_tables": None, "fast_check_json::law": None,
    },
    "program": {"fast_check_program_commands": None},
    "forms": {"fast_check_tree_forms": None},
    "source": {
        "fast_check_source_lexer": None, "fast_check_source_grammar": None, "fast_check_source_walks": None,
        "fast_check_source_parser": None,
    },
    "syntax": {"fast_check_syntax_table": None, "fast_check_syntax_written": None},
}
# The laws of std's traits. What an `impl` gives for one is a proof, which the check reads and nobody has to believe.
LAWS = {"laws", "total", "matches_eq", "matches_partial_cmp", "respects_eq"}
# what is tested by its output alone
CASES = re.compile("_cases$|_example$|_vectors$")
HEAD = re.compile(r"^(?:(?:abbrev|unfoldable|pub|record|data|partial)\s+)*(?:record\s+|data\s+)?([^\s:({]+)\s*(?:[:({]|$)")
STARTS = re.compile(r":|\brecord\b|\bdata\b")
WORD = re.compile(r"[^\s(){}\[\],.;]+")


@cache
def passed_on(crate, module=""):
    """The names under which a crate, or a module of its definitions, passes on those of others: each with its crate and the path there."""
    file = CRATES / crate / "specs" / (f"{module}.antt" if module else "Lib.antt")
    text = file.read_text() if file.exists() else ""
    lines = re.findall(r"^pub use Rattle\.(\w+)\.specs((?:\.\w+)*)(?: as (\w+))?$", text, re.M)
    return {name or path.rpartition(".")[2]: (other, path.split(".")[1:]) for other, path, name in lines}


def file_of(crate, path):
    """The file that a path below a crate's `specs` names, None where it is no file of definitions of this repository."""
    parts, at = path.split("."), 0
    while at < len(parts):
        found = passed_on(crate, "/".join(parts[:at])).get(parts[at])
        if found:
            crate, parts, at = found[0], found[1] + parts[at + 1 :], 0
        else:
            at += 1
    file = CRATES / crate / "specs" / ("/".join(parts) + ".antt")
    return file if parts and file.exists() else None


def imported(text):
    """What the `use` lines of a text bring in: name, then file and the name there. A module that is brought in whole has no name there."""
    found = {}
    for crate, path, names in re.findall(r"use Rattle\.(\w+)\.specs\.([\w.]+?)(?:\.\{([^}]*)\})?(?= as|;|\s*$)", text, re.M):
        file = file_of(crate, path)
        if not file:
            continue
        if not names:
            found[path.split(".")[-1]] = (file, None)
        for name in filter(None, (it.strip() for it in names.split(","))):
            there, _, here = name.partition(" as ")
            found[here or there] = (file, there)
    for crate, path, name in re.findall(r"use Rattle\.(\w+)\.specs\.([\w.]+) as (\w+)", text):
        if file_of(crate, path):
            found[name] = (file_of(crate, path), None)
    return found


class Definitions:
    """The definitions of a file: by their names, each with its lines; the lines of the file that hold them; and what it brings in."""

    def __init__(self, file):
        text = file.read_text()
        self.file, self.imports, self.lines, self.order = file, imported(text), {}, []
        name, depth, module = None, 0, []
        # A `use` may go on over several lines, within its braces.
        for line in re.sub(r"^(?:pub )?use [^\n{]*\{[^}]*\}.*$", "", text, flags=re.M).splitlines():
            if not line.strip() or line.lstrip().startswith(("--", "use ", "pub use ", "pub mod ", "mod ")):
                continue
            if line.startswith("module "):
                name, depth, module = None, 2, [line]
                continue
            indent = len(line) - len(line.lstrip())
            if line.strip() == "mutual":
                name, depth = None, indent + 2
                continue
            if line[0] not in " }":
                depth, module = 0, []
            depth = min(depth, indent) if indent % 2 == 0 and indent >= 2 * bool(module) else depth
            if indent == depth:
                head = HEAD.match(line.strip())
                if head and head[1] not in self.lines and STARTS.search(line):
                    name = head[1]
                    self.order.append(name)
                    self.lines[name] = [*module]
            if name:
                self.lines[name].append(line)

    @cache
    def inside(self):
        """Constructors and fields, by the definition that they stand in."""
        found = {}
        for name, lines in self.lines.items():
            for line in lines[1:]:
                inner = re.match(r"^\s+(?:pub\s+)?([^\s:]+)\s+:", line)
                if inner:
                    found.setdefault(inner[1], name)
        return found


@cache
def definitions(file):
    return Definitions(file)


def named_in(text, here, imports):
    """The definitions that a text names, as pairs of file and name."""
    for word in WORD.findall(text):
        if here and word in here.lines:
            yield here.file, word
        elif here and word in here.inside():
            yield here.file, here.inside()[word]
        elif word in imports:
            file, name = imports[word]
            there = definitions(file)
            if name is None:
                for it in there.order:
                    if re.search(rf"\b{re.escape(word)}\.{re.escape(it)}(?![\w-])", text):
                        yield file, it
            elif name in there.lines:
                yield file, name
            elif name in there.inside():
                yield file, there.inside()[name]


def is_offered(text, found):
    """Whether a function is public: it says so, or it is a member of a trait, or of an `impl` of one."""
    if "pub fn" in found[0]:
        return True
    heads = re.findall(r"^(?:pub )?(?:impl|trait)\b[^{]*", text[: found.start()], re.M)
    return bool(found[1]) and bool(heads) and (" for " in heads[-1] or "trait" in heads[-1].split())


def sources(key):
    """The files of code that a key of the chapters names."""
    crate, _, module = key.partition("::")
    src = CRATES / crate / "src"
    files = sorted(src.rglob("*.rt")) if not module else [*src.glob(f"{module}.rt"), *sorted((src / module).rglob("*.rt"))]
    if not files:
        sys.exit(f"{Path(__file__).name}: CHAPTERS names {key}, and no such code is there")
    return files


def clauses(head):
    """How many lines of the head of a function are of its clauses."""
    lines, depth = 0, 0
    for line in filter(str.strip, head.split("\n")):
        if depth > 0 or re.match(r"\s*(?:requires|ensures)\b", line):
            lines += 1
            depth += line.count("{") - line.count("}")
    return lines


def contracts(key, names):
    """The clauses of public functions, and the ghost members of traits and models but for laws, each with what its file brings in, and with
    its place, its lines of clauses and its ghost lines."""
    wanted = set(names or ())
    for file in sources(key):
        text = file.read_text()
        imports = imported(text)
        for found in re.finditer(r"^([ ]*)(?:pub )?(?:const )?fn (\w+)(.*?)(?:^\1\{\}?$|;$|\{$)", text, re.M | re.S):
            if (names is None or found[2] in names) and is_offered(text, found):
                wanted.discard(found[2])
                yield found[3], imports, {(file, found.start()): (clauses(found[3]), 0)}
        if names is None:
            for found in re.finditer(r"^\s+ghost (\w+) = \{(.*?)\};?$", text, re.M | re.S):
                if found[1] not in LAWS:
                    yield found[2], imports, {(file, found.start()): (0, found[0].strip().count("\n") + 1)}
    if wanted:
        sys.exit(f"{Path(__file__).name}: CHAPTERS names {', '.join(sorted(wanted))} of {key}, and no such call is there")


def reached(calls):
    """All definitions that the contracts of calls stand on."""
    waiting, seen = [], set()
    for key, names in calls.items():
        for text, imports, _ in contracts(key, names):
            waiting += named_in(text, None, imports)
    while waiting:
        it = waiting.pop()
        if it not in seen:
            seen.add(it)
            here = definitions(it[0])
            waiting += named_in("\n".join(here.lines[it[1]]), here, here.imports)
    return seen


def in_order(found):
    """Files so that each comes behind those that its definitions stand on, where that can be."""
    files = sorted({file for file, _ in found})
    order, done = [], set()

    def add(file):
        if file in done or file not in files:
            return
        done.add(file)
        for below, _ in sorted({(it[0], "") for it in definitions(file).imports.values()}):
            add(below)
        order.append(file)

    for file in files:
        add(file)
    return order


def size(found):
    return sum(len(definitions(file).lines[name]) for file, name in found)


def chapters():
    before = set()
    for chapter, calls in CHAPTERS.items():
        found = reached(calls) - before
        before |= found
        yield chapter, found
    yield "in all", before


def is_list(file):
    """Whether a file only lists the files of a crate or of a module, and passes on others'."""
    return file.name == "Lib.antt" or all(not line or line.startswith(("pub mod ", "pub use ")) for line in file.read_text().splitlines())


def every_file():
    """The files of definitions, but for lists of files and what is written from the table of forms."""
    found = [it for it in sorted(CRATES.glob("*/specs/**/*.antt")) if "out" not in it.parts and not is_list(it)]
    return [it for it in found if not it.read_text().startswith("-- Written by forms/write.py") and not CASES.search(it.parts[len(CRATES.parts)])]


def main(words):
    every = dict(chapters())
    public = {file for file, _ in every["in all"]}
    inner = [it for it in every_file() if it not in public]
    if not words:
        for chapter, found in every.items():
            print(f"{chapter:10} {len({f for f, _ in found}):4} files {len(found):5} definitions {size(found):6} lines")
        read = [it for it in every_file() if it in public]
        whole = sum(len(it.read_text().splitlines()) for it in read)
        beside = {}
        for calls in CHAPTERS.values():
            for _, _, lines in (it for key, names in calls.items() for it in contracts(key, names)):
                beside.update(lines)
        print("beside them {} lines of clauses and {} ghost lines in src/".format(*map(sum, zip(*beside.values()))))
        print(f"{len(read)} of {len(every_file())} files that are not written from the table of forms are reached, {whole} lines by whole files")
    elif words[0] == "read" and words[1:] and words[1] in every:
        found = every[words[1]]
        for file in in_order(found):
            names = [it for it in definitions(file).order if (file, it) in found]
            print(f"{file.relative_to(CRATES)}: {size([(file, it) for it in names])} lines: {' '.join(names)}")
    elif words[0] in ("mark", "check"):
        wrong = 0
        for file in every_file():
            text = file.read_text()
            is_marked, is_inner = text.startswith(INNER), file in inner
            if is_marked != is_inner:
                wrong += 1
                if words[0] == "mark":
                    file.write_text(f"{INNER}\n{text}" if is_inner else text.removeprefix(f"{INNER}\n"))
                else:
                    print(f"{file.relative_to(TOP)}: {'is inner and does not say so' if is_inner else 'says that it is inner and is not'}")
        print(f"{len(inner)} of {len(every_file())} files are inner; {wrong} {'changed' if words[0] == 'mark' else 'are wrong'}")
        return int(words[0] == "check" and wrong > 0)
    else:
        print(__doc__, file=sys.stderr)
        return 2
    return 0


if __name__ == "__main__":
    sys.exit(main(sys.argv[1:]))
