"""Says which blocks of the original no input reaches.

usage: coverage.py CRATE OUT [FILE ..]      after build.py CRATE OUT --coverage; FILEs, or all stored runs, those with a cache, and 400 random inputs of each kind

A block is what stands behind `if`, `else`, `=>`, `for`, `while` or `loop` with a brace. For each that was not reached its file, its line and that line's text are
printed. What cannot be reached from here, with the reason, is listed in README.md.
"""
import json
import os
import subprocess
import sys
import tempfile
from pathlib import Path

from bench.original import patches
from bench.original.build import FILES
from bench.original.inputs import REQUESTS, cached_runs, random_inputs, runs_of, stored_files

LIMITS = ["sh", "-c", 'ulimit -t 1; ulimit -v 1500000; exec "$@"', "sh"]


def run(out, covered, command, file):
    subprocess.run([*LIMITS, out / "covered", command, file], stdin=subprocess.DEVNULL, stdout=subprocess.DEVNULL, stderr=subprocess.DEVNULL,
                   env={**os.environ, "COVERED": str(covered)})


def run_all(out, covered, files, folder):
    for _, command, _, file in (each for file in files for each in runs_of(file, folder)):
        run(out, covered, command, file)
    found = set(covered.read_text().splitlines()) if covered.exists() else set()
    covered.write_text("".join(f"{line}\n" for line in sorted(found)))


def all_inputs(out, covered, folder):
    run_all(out, covered, stored_files(), folder)
    for number, (cached, _) in enumerate(cached_runs()):
        file = folder / f"cached-{number}.json"
        file.write_text(json.dumps(cached))
        run(out, covered, "rebuild", file)
    for kind in REQUESTS:
        for files in random_inputs(kind, 400, 1, folder):
            run_all(out, covered, files, folder)


def main():
    if len(sys.argv) < 3:
        sys.exit(__doc__)
    crate, out = Path(sys.argv[1]), Path(sys.argv[2]).resolve()
    with tempfile.TemporaryDirectory() as folder:
        covered = Path(folder) / "covered"
        if sys.argv[3:]:
            run_all(out, covered, sys.argv[3:], Path(folder))
        else:
            all_inputs(out, covered, Path(folder))
        reached = set(covered.read_text().splitlines())
    blocks = 0
    for name in FILES:
        text = (crate / f"src/fast_check/{name}.rs").read_text()
        for number, line in enumerate(patches.counted(f"{name}.rs", text).split("\n"), 1):
            blocks += patches.COUNTS in line
            if patches.COUNTS in line and f"{name}.rs {number}" not in reached:
                print(f"{name}.rs:{number}: {line.split(patches.COUNTS)[0].strip()}")
    print(f"{blocks} blocks, {len(reached)} reached")


if __name__ == "__main__":
    main()
