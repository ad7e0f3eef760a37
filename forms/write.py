#!/usr/bin/env python3
"""Writes all that says of the syntax tree no more than forms.txt says, and of diagnostics no more than diagnostics.txt: README.md beside it names the files.

    forms/write.py            writes the files
    forms/write.py --check    compares them, and names the first difference of each
    forms/write.py --list     names them, with how many of their lines are written
"""
import sys
from pathlib import Path

# what stands here is read anew each time: it takes less than a second, and leaves no files behind
sys.dont_write_bytecode = True

from choices import write_choices
from diagnostics import write_diagnostics
from form_crates import write_form_crates
from json_schema import write_json_schema
from layout import imports
from places import write_names, write_page, write_places
from rows import write_proofs, write_rules
from schema import write_schema
from syntax import write_syntax
from table import Table
from typescript import write_types

HERE = Path(__file__).resolve().parent
ROOT = HERE.parent


WRITERS = (
    write_form_crates, write_choices, write_schema, write_places, write_names, write_page, write_rules, write_proofs, write_types, write_json_schema,
    write_diagnostics, write_syntax,
)
WRITTEN = "Written by forms/write.py from forms/forms.txt"


class Output:
    """The files, whole or between two lines of theirs, as they are to be."""

    def __init__(self):
        self.files, self.counts = {}, {}

    def whole(self, path, lines):
        """A whole file. One of code begins with what stands there, by lines `//!`, and then says where it comes from."""
        if path.endswith(".rt"):
            head = next(place for place, line in enumerate(lines) if not line.startswith("//!"))
            if head == 0:
                raise SystemExit(f"{path}: its first line has to say what stands there")
            lines = lines[:head] + [f"// {WRITTEN}."] + lines[head:]
        else:
            lines = [f"-- {WRITTEN}."] + lines
        self.files[path] = "\n".join(lines) + "\n"
        self.counts[path] = len(lines)

    def lines_of(self, path):
        text = self.files.get(path)
        if text is None:
            text = (ROOT / path).read_text()
        return text.split("\n")

    def between(self, path, first, last, lines):
        """As `as_it_stands`, with a comment that says where the lines come from, where the file is one of code."""
        self.as_it_stands(path, first, last, written_above(lines) if path.endswith(".rt") else lines)

    def as_it_stands(self, path, first, last, lines):
        """The lines behind the line `first`, up to the next line `last`, or to the end of the file where it is none."""
        old = self.lines_of(path)
        if old.count(first) != 1 or last is not None and last not in old:
            raise SystemExit(f"{path}: the lines '{first}' and '{last}' have to stand there, the first of them once")
        start = old.index(first) + 1
        end = old.index(last, start) if last is not None else len(old) - 1
        self.files[path] = "\n".join(old[:start] + lines + old[end:])
        self.counts[path] = self.counts.get(path, 0) + len(lines)

    def imported(self, path, module, names, width):
        """The lines that import from the module, which stand together: these names."""
        old = self.lines_of(path)
        found = [place for place, line in enumerate(old) if line.startswith(f"use {module}.{{")]
        if not found or found[-1] - found[0] + 1 != len(found):
            raise SystemExit(f"{path}: what is imported from {module} has to stand there, in lines one behind the other")
        lines = imports(module, names, width)
        self.files[path] = "\n".join(old[: found[0]] + lines + old[found[-1] + 1 :])
        self.counts[path] = self.counts.get(path, 0) + len(lines)


def written_above(lines):
    """The lines with a comment that says where they come from, within the brackets that they stand in."""
    if lines[0] == "":
        return ["", f"// {WRITTEN}, as all that follows."] + lines
    comment = [f"    // {WRITTEN}, up to the closing bracket."]
    return lines[:1] + comment + lines[1:] if lines[0].endswith("[") else comment + lines


def write_all(table):
    out = Output()
    for write_part in WRITERS:
        write_part(table, out)
    return out


def first_difference(path, wanted):
    """What is said of the first line that is not as it is to be."""
    file = ROOT / path
    if not file.exists():
        return f"{path}: is not there"
    found = file.read_text()
    if found == wanted:
        return None
    found, wanted = found.split("\n"), wanted.split("\n")
    for number, (old, new) in enumerate(zip(found + [None], wanted + [None]), 1):
        if old != new:
            return f"{path}, line {number}:\n  there: {old}\n  table: {new}"


def check(out):
    """The status: 0 where each file is as it is to be."""
    told = [difference for path, text in out.files.items() if (difference := first_difference(path, text))]
    for difference in told:
        print(difference)
    print(f"{len(out.files) - len(told)} files as forms.txt has them, {len(told)} others")
    return 1 if told else 0


def write(out):
    for path, text in out.files.items():
        file = ROOT / path
        if not file.exists() or file.read_text() != text:
            file.parent.mkdir(parents=True, exist_ok=True)
            file.write_text(text)
            print("written:", path)


def main(words):
    out = write_all(Table((HERE / "forms.txt").read_text()))
    if words == ["--check"]:
        return check(out)
    if words == ["--list"]:
        for path, count in out.counts.items():
            print(f"{count:5} {path}")
        print(f"{sum(out.counts.values()):5} lines of {len(out.counts)} files")
        return 0
    if words:
        print(__doc__.strip())
        return 2
    write(out)
    return 0


if __name__ == "__main__":
    sys.exit(main(sys.argv[1:]))
