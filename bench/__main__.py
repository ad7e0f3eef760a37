"""Runs a script of the benches by its name, from the top of the repository:

    python3 -m bench                       names them
    python3 -m bench stored PROGRAM        runs `stored` of the folder `check`, whose first lines say what its words are
"""
import runpy
import sys
from pathlib import Path

FOLDERS = ("check", "cases", "time", "original")


def scripts():
    """The scripts, by their names, each with its module."""
    for folder in FOLDERS:
        for file in sorted((Path(__file__).parent / folder).glob("*.py")):
            if "__main__" in file.read_text():
                yield file.stem if folder != "original" else f"original.{file.stem}", f"bench.{folder}.{file.stem}"


def main(words):
    known = dict(scripts())
    if not words or words[0] not in known:
        print(__doc__ + "\n" + "\n".join(known), file=sys.stderr)
        return 2
    sys.argv = words
    runpy.run_module(known[words[0]], run_name="__main__", alter_sys=True)
    return 0


if __name__ == "__main__":
    sys.exit(main(sys.argv[1:]))
