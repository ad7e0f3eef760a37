"""Runs a program with each of its requests for memory refused in turn, and reports which runs do not end as out of memory has to.

    python3 -m bench refuse PROGRAM COMMAND FILE..
    python3 -m bench refuse --where NUMBER PROGRAM COMMAND FILE
    python3 -m bench refuse --stored COUNT PROGRAM COMMAND
    python3 -m bench refuse --folders PROGRAM FOLDER..

PROGRAM COMMAND FILE is run with its first request refused, then with its second, and so on, until a run ends before
the request that it was to be refused; each once with this request refused alone, and once with all from there on. Each run has to end with
status 3, the line `error: out of memory`, and nothing on standard output.
A line for each file says how many requests there are, how many runs were made, and how many differ; the lines below it say in what.
A run that answers as if nothing had been refused has passed over that memory ran out, or has asked again for less: it differs too. The status is 1
where any run differs, and where no request was counted: then the program has an allocator of its own, and nothing was tried.

`--stored COUNT` takes so many of the stored runs of a command on less than 20 KB, evenly spread. A line for all files stands below.

`--where NUMBER` refuses this request alone, and reports which calls it came from, by the names that the program has kept (`nm`).

`--folders` runs PROGRAM, which is `fast-check-source`, in each FOLDER with the word `.`. The line may also be `error: memory allocation failed` then.

The requests are those that the program makes of the C library: malloc, calloc, realloc, aligned_alloc and posix_memalign (`fork_server.py`).
"""
import collections
import itertools
import os
import subprocess
import sys
import tempfile

from bench.check.fork_server import ForkServer, compile_library
from bench.check.program_path import program_path

LINES = (b"error: out of memory\n", b"error: memory allocation failed\n")
PASSED_OVER = "the answer is as if nothing had been refused"
DATA = os.path.join(os.path.dirname(os.path.abspath(__file__)), "../../crates/fast_check_vectors/data")
# Of inputs of so many bytes a run has so many requests that to refuse each takes too long.
LARGE = 20_000
TOTAL = collections.Counter()
MODES = {"alone": False, "and all from there on": True}


class Program:
    """The program, on one file."""

    # The lines of which one has to say that memory ran out.
    lines = LINES[:1]

    def __init__(self, server, command, path):
        self.server, self.command, self.path = server, command, path
        with open(path, "rb") as file:
            self.text = file.read()

    def run(self, number, behind=False, calls=0):
        """Runs it with this request refused. Answers its status with what it wrote, and how many requests it met."""
        ran = self.server.run(self.command, self.text, refused=number, behind=behind, calls=calls)
        return ran[:3], ran.requests

    def is_refused(self, ended):
        """Whether a run ended as out of memory has to."""
        return ended in [(3, b"", line) for line in self.lines]


class FolderProgram(Program):
    """The program `fast-check-source`, in one folder."""

    lines = LINES

    def __init__(self, program, library, path):
        self.server, self.command, self.path, self.text = ForkServer(program, library, word=".", folder=path), ".", path, b""


def outcome(ended, answer):
    """What a run that did not end as it has to ended with, in words."""
    status, out, err = ended
    if ended == answer:
        return PASSED_OVER
    end = f"status {status}" if status >= 0 else f"signal {-status}"
    wrote = f", {len(out)} bytes of output" if out else ""
    return f"{end}, {err.decode(errors='replace').strip() or 'no line'}{wrote}"


def spans(numbers):
    """The numbers, those that follow each other as `first to last`."""
    found = []
    for _, group in itertools.groupby(enumerate(numbers), lambda it: it[1] - it[0]):
        group = [it for _, it in group]
        found.append(f"{group[0]}" if len(group) == 1 else f"{group[0]} to {group[-1]}")
    return ", ".join(found)


def each_request(program, behind):
    """How each run ended, by the number of the request that it was refused, until one ends before; that one is told under 0."""
    for number in itertools.count(1):
        ended, met = program.run(number, behind)
        yield number if met >= number else 0, ended
        if met < number:
            return


def refuse_each(program):
    """Refuses each request of a run in turn, and prints what differs. Answers whether none did."""
    answer, runs, requests, differing = program.run(0)[0], 1, 0, collections.defaultdict(list)
    for how, behind in MODES.items():
        for number, ended in each_request(program, behind):
            runs, requests = runs + 1, max(requests, number)
            if not program.is_refused(ended) if number else ended != answer:
                differing[how, outcome(ended, answer)].append(number)
    TOTAL.update(files=1, requests=requests, runs=runs, differing=sum(map(len, differing.values())))
    print(f"{program.path}: requests={requests} runs={runs} differing={sum(map(len, differing.values()))}")
    for (how, what), found in differing.items():
        print(f"    {how}: {what}: {len(found)} of the requests, {spans(found)}")
    sys.stdout.flush()
    return requests > 0 and not differing


def tell_where(file, program, number, calls):
    """Tells from which calls a request came."""
    ended, _ = program.run(number, calls=calls)
    named = subprocess.run(["nm", "--defined-only", "-n", file], capture_output=True, text=True).stdout
    known = [(int(it.split(maxsplit=2)[0], 16), it.split(maxsplit=2)[2]) for it in named.splitlines()]
    for line in os.pread(calls, os.fstat(calls).st_size, 0).decode().splitlines():
        library, place = line.rsplit(" ", 1)
        below = [name for start, name in known if start <= int(place, 16)]
        print(f"  {below[-1]}" if below and os.path.samefile(library, file) else f"  {library}")
    print("the run ends as out of memory has to" if program.is_refused(ended) else outcome(ended, program.run(0)[0]))


def stored_runs(command, count):
    """So many of the inputs of the stored runs of a command, evenly spread."""
    with open(os.path.join(DATA, "cases")) as file:
        words = [line.split() for line in file if line.startswith(command + " ")]
    paths = sorted({os.path.join(DATA, line[1]) for line in words if len(line) == 2})
    paths = [path for path in paths if os.path.isfile(path) and os.path.getsize(path) < LARGE]
    return [paths[place * len(paths) // count] for place in range(min(count, len(paths)))]


def end_of(refused):
    """Prints the line of all files, and answers the status."""
    print(" ".join(f"{what}={number}" for what, number in TOTAL.items()))
    return 0 if all(refused) else 1


def main():
    words, where = sys.argv[1:], None
    if words[:1] == ["--folders"] and len(words) > 2:
        with tempfile.TemporaryDirectory() as made:
            program, library = program_path(words[1]), compile_library(made)
            return end_of([refuse_each(FolderProgram(program, library, path)) for path in words[2:]])
    if words[:1] == ["--stored"] and len(words) == 4:
        words = [*words[2:], *stored_runs(words[3], int(words[1]))]
    if words[:1] == ["--where"] and words[1:2] and words[1].isdigit():
        where, words = int(words[1]), words[2:]
    if len(words) < 3 or words[0].startswith("-") or where is not None and len(words) > 3:
        print(__doc__)
        return 2
    file, command, *paths = words
    calls = os.memfd_create("calls")
    with tempfile.TemporaryDirectory() as folder:
        server = ForkServer(program_path(file), compile_library(folder), calls)
        if where is not None:
            tell_where(file, Program(server, command, paths[0]), where, calls)
            return 0
        refused = [refuse_each(Program(server, command, path)) for path in paths]
        print(" ".join(f"{what}={number}" for what, number in TOTAL.items()))
        return 0 if all(refused) else 1


if __name__ == "__main__":
    sys.exit(main())
