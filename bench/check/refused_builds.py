"""Refuses each request for memory of builds with a cache in turn, and reports where the answer is another one than out of memory.

The program of all cases (`fast_check_vectors`) makes two of the runs of its part `cached_builds`, each by itself: one whose first build fills the cache
that the second uses, and one whose cache has an item from the start. Each request of a run is refused alone, and once with all from there on, until a run
ends before. What is printed then has to be what is printed without, or to say out of memory: of the run as a whole, or of a build, whose cache
has got nothing then that no build of the run sets. A build behind it answers as it does without, but for what it finds in the cache.

One line is printed: how many requests there are, how many runs were made, how many of them change nothing, and how many differ; lines below it say in
what. The status is 1 where any differs, or no run says out of memory.

Usage: python3 -m bench refused_builds PROGRAM
"""
import collections
import json
import os
import sys
import tempfile

from bench.check.fork_server import ForkServer, compile_library
from bench.check.program_path import VECTORS, program_path

DATA = os.path.join(os.path.dirname(os.path.abspath(__file__)), "../../crates/fast_check_vectors/data")
PART = "cached_builds"
NAMES = ("three_modules_without_fault", "an_item_without_modules")
WANT, FAULT = "out of memory", "    out of memory"
Build = collections.namedtuple("Build", "answers is_refused sets others")


def line_of(name):
    """The line of a run, as it is stored."""
    with open(os.path.join(DATA, PART)) as file:
        return next(line for line in file if json.loads(line)["name"] == name)


def builds_of(lines):
    """What a run prints behind its name, build by build."""
    builds = []
    for line in lines:
        if line == "  build":
            builds.append([])
        elif builds:
            builds[-1].append(line)
    begins = lambda build, word: [line for line in build if line.startswith(word)]
    return [Build(begins(build, "    answers "), FAULT in build, begins(build, "    sets "),
                  [line for line in build if not line.startswith(("    answers ", "    sets ")) and line != FAULT]) for build in builds]


def is_said(out, wanted):
    """Whether what is printed says out of memory, and is no other answer beside it."""
    lines, stated = out.splitlines(), builds_of(wanted.splitlines())
    builds, may_be_set = builds_of(lines), {line for build in stated for line in build.sets}
    if lines[:1] != wanted.splitlines()[:1] or len(builds) != len(stated):
        return False
    is_refused = False
    for build, without in zip(builds, stated):
        is_refused |= build.is_refused
        if not is_refused and build != without or build.others or not may_be_set.issuperset(build.sets):
            return False
        if build.answers != ([] if build.is_refused else without.answers):
            return False
    return is_refused


def outcome(ran, wanted):
    """How a run ended: `unchanged`, `said`, or in what it differs."""
    status, out, err = ran.status, ran.out.decode(errors="replace"), ran.err.decode(errors="replace")
    if (status, out, err) == (0, wanted, ""):
        return "unchanged"
    if status == 0 and not err and (out == WANT + "\n" or is_said(out, wanted)):
        return "said"
    # the words or the file are not read, or nothing is printed
    if status == 1 and not out and "memory" in err:
        return "said"
    return f"status {status}, {err.strip() or 'no line'}: {out.strip()[:300]}"


def main():
    if len(sys.argv) != 2 or sys.argv[1].startswith("-"):
        print(__doc__)
        return 2
    requests, found = 0, collections.Counter()
    with tempfile.TemporaryDirectory() as folder:
        library = compile_library(folder)
        for name in NAMES:
            with open(os.path.join(folder, PART), "w") as file:
                file.write(line_of(name))
            server = ForkServer(program_path(sys.argv[1], VECTORS), library, word=PART, folder=folder)
            wanted = server.run(PART, b"").out.decode()
            more, ended = server.refuse_each(PART, lambda ran: outcome(ran, wanted))
            requests, found = requests + more, found + ended
    differing = {what: number for what, number in found.items() if what not in ("unchanged", "said")}
    print(f"requests={requests} runs={sum(found.values())} unchanged={found['unchanged']} said={found['said']} differing={sum(differing.values())}")
    for what, number in differing.items():
        print(f"    {number} runs: {what}")
    return int(bool(differing) or not found["said"])


if __name__ == "__main__":
    sys.exit(main())
