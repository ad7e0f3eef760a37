#!/usr/bin/env python3
"""The edits of a crate that must fail, in one file: `mutants/CRATE.edits` has a block for each, sorted by their names. A block begins with its line
`edit: NAME`; the lines behind it are those of an edit of the gate (`crates/CRATE/must-fail/NAME.edit`).

usage: edit_blocks.py pack                  takes each file mutants/CRATE/NAME.edit into mutants/CRATE.edits, in place of a block of its name
       edit_blocks.py unpack CRATE FOLDER   writes each block of a crate to FOLDER/NAME.edit
"""
import sys
from pathlib import Path

TOP = Path(__file__).resolve().parents[2]
MUTANTS = TOP / "mutants"
HEAD = "edit: "


def read_blocks(text):
    """The edits of a file of blocks, by their names."""
    found, name = {}, None
    for line in text.splitlines(True):
        if line.startswith(HEAD):
            name = line.removeprefix(HEAD).strip()
            found[name] = ""
        elif name is not None:
            found[name] += line
    return {name: edit.strip("\n") + "\n" for name, edit in found.items()}


def write_blocks(edits):
    """The file of these edits."""
    return "\n".join(f"{HEAD}{name}\n{edit.strip()}\n" for name, edit in sorted(edits.items()))


def edits_of_crate(crate):
    """The edits of a crate in mutants/, by their names."""
    file = MUTANTS / f"{crate}.edits"
    return read_blocks(file.read_text()) if file.is_file() else {}


def crates_with_edits():
    return sorted(file.stem for file in MUTANTS.glob("*.edits"))


def pack():
    for folder in sorted(it for it in MUTANTS.iterdir() if it.is_dir()):
        files = sorted(folder.glob("*.edit"))
        edits = {**edits_of_crate(folder.name), **{file.stem: file.read_text() for file in files}}
        (MUTANTS / f"{folder.name}.edits").write_text(write_blocks(edits))
        for file in files:
            file.unlink()
        folder.rmdir()


def unpack(crate, folder):
    """Writes the edits of a crate as files, and answers their paths."""
    folder = Path(folder)
    folder.mkdir(parents=True, exist_ok=True)
    paths = []
    for name, edit in edits_of_crate(crate).items():
        paths.append(folder / f"{name}.edit")
        paths[-1].write_text(edit)
    return paths


def main(words):
    if words == ["pack"]:
        pack()
    elif len(words) == 3 and words[0] == "unpack":
        unpack(*words[1:])
    else:
        print(__doc__, file=sys.stderr)
        return 2
    return 0


if __name__ == "__main__":
    sys.exit(main(sys.argv[1:]))
