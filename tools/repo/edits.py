#!/usr/bin/env python3
"""Says which edits that must fail no longer apply: an edit names files of its crate, and each text that it replaces has to
stand once in the file named last.

usage: edits.py [CRATE..]    status 1 if any does not apply; without a name: all edits of the gate and of mutants/
"""
import sys
from pathlib import Path

sys.dont_write_bytecode = True
from edit_blocks import crates_with_edits, edits_of_crate

TOP = Path(__file__).resolve().parents[2]


def wrong(edit, crate):
    """What is wrong with the text of an edit, None if it applies."""
    texts, file, old = {}, None, None
    for line in edit.splitlines():
        if line.startswith("file: "):
            file = TOP / "crates" / crate / line.removeprefix("file: ").strip()
            if not file.is_file():
                return f"there is no {file.relative_to(TOP / 'crates' / crate)}"
            texts.setdefault(file, file.read_text())
        elif line.startswith("old: "):
            old = line.removeprefix("old: ")
            if file is None:
                return "names no file"
            if texts[file].count(old) != 1:
                return f"stands {texts[file].count(old)} times: {old}"
        elif line.startswith("new:") and old is not None:
            texts[file], old = texts[file].replace(old, line.removeprefix("new:").removeprefix(" ")), None
    return None if texts else "names no file"


def all_edits():
    """The edits of each crate: their names and texts."""
    for file in sorted(TOP.glob("crates/*/must-fail/*.edit")):
        yield file.parts[-3], str(file.relative_to(TOP)), file.read_text()
    for crate in crates_with_edits():
        for name, text in edits_of_crate(crate).items():
            yield crate, f"mutants/{crate}.edits: {name}", text


def main(crates):
    tried = [it for it in all_edits() if not crates or it[0] in crates]
    bad = [(name, why) for crate, name, text in tried if (why := wrong(text, crate))]
    for name, why in bad:
        print(f"{name}: {why}")
    print(f"{len(tried)} edits, {len(bad)} of them do not apply")
    return int(bool(bad))


if __name__ == "__main__":
    sys.exit(main(sys.argv[1:]))
