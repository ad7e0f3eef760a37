#!/usr/bin/env python3
"""Says which fragments of code of docs/LIBRARY.md are no code of the crates, so that the gate compiles each of them.

usage: fragments.py    status 1 if there is one. Layout and comments count for nothing.
"""
import re
import sys
from pathlib import Path

TOP = Path(__file__).resolve().parents[2]


def plain(text):
    """The text without comments of lines, white space, and a comma before a closing bracket, which layout adds."""
    return re.sub(r",(?=[)\]}])", "", re.sub(r"^\s*//.*$|\s+", "", text, flags=re.MULTILINE))


def main():
    code = [plain(file.read_text()) for file in sorted(TOP.glob("crates/*/src/**/*.rt"))]
    fragments = re.findall(r"^( *)```rust\n(.*?)^ *```$", (TOP / "docs/LIBRARY.md").read_text(), re.DOTALL | re.MULTILINE)
    strange = [text for _, text in fragments if not any(plain(text) in file for file in code)]
    for text in strange:
        print(f"no crate has\n{text}")
    print(f"{len(fragments)} fragments, {len(strange)} of them in no crate")
    return 1 if strange else 0


if __name__ == "__main__":
    sys.exit(main())
