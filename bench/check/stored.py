"""Runs a program on all stored inputs and compares what it prints with what is stored, without the gate: to see within a minute what a change of code changes.

usage: python3 -m bench stored PROGRAM [WORD..]    the runs whose lines have one of the words; without any, all. Runs that redirect are left out: `rt ci` has them.
"""
import subprocess
import sys
from concurrent.futures import ThreadPoolExecutor
from pathlib import Path

from bench.check.program_path import program_path

CRATE = Path(__file__).resolve().parents[2] / "crates/fast_check_vectors"


def stored():
    """Each stored run: its words, what it prints and its status."""
    words, lines = None, []
    for line in (CRATE / "stdout").read_text(errors="surrogateescape").splitlines():
        if line.startswith("$ fast-check"):
            words, lines = line.split()[2:], []
        elif words is not None and line.startswith("status "):
            yield words, "\n".join(lines), int(line.split()[1])
            words = None
        elif words is not None:
            lines.append(line)


def differs(program, run):
    """What a program answers otherwise than stored, None if nothing."""
    words, wanted, status = run
    try:
        ran = subprocess.run([program, *words], cwd=CRATE / "data", stdin=subprocess.DEVNULL, capture_output=True, timeout=120)
    except subprocess.TimeoutExpired:
        return "takes more than 120 seconds"
    told = (ran.stdout + ran.stderr).decode(errors="surrogateescape").rstrip("\n")
    if (told, ran.returncode) == (wanted, status):
        return None
    return f"wanted {status} {wanted[:300]}\n    gives  {ran.returncode} {told[:300]}"


def main(words):
    if not words:
        print(__doc__, file=sys.stderr)
        return 2
    program = program_path(words[0])
    runs = [it for it in stored() if not any("<" in word or ">" in word for word in it[0])]
    runs = [it for it in runs if not words[1:] or any(word in " ".join(it[0]) for word in words[1:])]
    with ThreadPoolExecutor(2) as pool:
        found = [(run, why) for run, why in zip(runs, pool.map(lambda run: differs(program, run), runs)) if why]
    for run, why in found:
        print(f"{' '.join(run[0])}: {why}")
    print(f"{len(runs)} stored runs, {len(found)} differ")
    return int(bool(found))


if __name__ == "__main__":
    sys.exit(main(sys.argv[1:]))
