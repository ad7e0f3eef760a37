"""Refuses each request for memory of calls that change a name set, or a map of modules with one, and reports where the value is not what it was before.

For each call the driver (`bench/time/driver.sh refused DRIVER`) makes a value, calls, and, where that runs out of memory, compares the value with what it
was: the same paths and the same count of nodes. Each request is refused alone, and once with all from there on, until a run ends before. A line for each call
says how many requests there are, and how many runs ended as what: `done` (a request ahead, which is passed over), `as before`, `out of memory` (where the value
is made, or the words are read: then with status 1).
The status is 1 where a run ended otherwise, or no run as before.

Usage: python3 -m bench refused_names DRIVER
"""
import sys
import tempfile

from bench.check.fork_server import ForkServer, compile_library
from bench.check.program_path import program_path

CALLS = ("add_new", "add_covering", "path_new", "path_below", "path_covering", "named_new", "named_joined", "extend", "extend_joint", "extend_covering",
         "imported", "star_default", "imported_star", "handled", "handled_more", "pending", "pending_more")
KNOWN = ("done", "as before", "out of memory")
# A star takes the place of names without memory.
NO_REQUEST = {"imported_star"}


def outcome(ran):
    """What a run printed, or how it ended."""
    status, out, _ = ran[:3]
    if status == 1 and not out:
        return "out of memory"
    return out.decode(errors="replace").strip() if status == 0 else f"status {status}"


def main():
    if len(sys.argv) != 2 or sys.argv[1].startswith("-"):
        print(__doc__)
        return 2
    is_well = True
    with tempfile.TemporaryDirectory() as folder:
        server = ForkServer(program_path(sys.argv[1], "bench/time/driver.sh refused builds one"), compile_library(folder))
        for call in CALLS:
            requests, found = server.refuse_each(call, outcome)
            is_well &= set(found) <= set(KNOWN) and (found["as before"] > 0) == (call not in NO_REQUEST)
            told = ", ".join(f"{number} {what}" for what, number in sorted(found.items()))
            print(f"{call}: requests={requests} runs={sum(found.values())}: {told}", flush=True)
    return int(not is_well)


if __name__ == "__main__":
    sys.exit(main())
