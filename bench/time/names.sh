#!/usr/bin/env bash
# Makes sets of names in each of some ways, and prints for each the seconds, the most memory that the run held, and the bytes of it for each name:
#   grow               names one by one, of which each second one has a name below it
#   mixed              names in an order that jumps to and fro
#   third              paths of three names
#   covered            paths of three names, each covered by its first name afterwards
#   extended           a set that is extended by one name after another
#   extended_covering  names with one name below each, the set then extended by one after another of these names, whole
#   joined             two grown sets that share half of their names, one extended by the other
#   deep               a path of names, copied, and extended by its copy
#   cut                a path of names, covered by its first name
# usage: bench/time/names.sh [PROGRAM]       builds what it runs (bench/time/driver.sh names), unless it is given
set -eu
program=${1:-}
if [ -z "$program" ]; then
  program=$(mktemp)
  trap 'rm -f "$program"' EXIT
  "$(dirname "$0")/driver.sh" names "$program"
elif [ ! -x "$program" ]; then
  echo "names.sh: there is no program $program; without one it is built" >&2
  exit 2
fi
python3 - "$(readlink -f "$program")" <<'PY'
import os, sys, tempfile, time

COUNTS = {
    "grow": (25_000, 100_000, 400_000), "mixed": (25_000, 100_000, 400_000), "third": (25_000, 100_000, 400_000), "covered": (25_000, 100_000, 400_000),
    "extended": (10_000, 40_000, 160_000), "extended_covering": (25_000, 100_000, 400_000), "joined": (25_000, 100_000, 400_000), "deep": (1_000, 10_000, 100_000), "cut": (1_000, 10_000, 100_000),
}


def run(command, count):
    """The seconds and the most memory, in bytes, of one run over a file `cases` of one call."""
    with tempfile.TemporaryDirectory() as room:
        os.chdir(room)
        with open("cases", "w") as cases:
            cases.write(f"{command} {count}\n")
        start = time.monotonic()
        child = os.posix_spawn(sys.argv[1], [sys.argv[1]], os.environ, file_actions=[(os.POSIX_SPAWN_OPEN, 1, os.devnull, os.O_WRONLY, 0)])
        _, status, usage = os.wait4(child, 0)
        os.chdir("/")
        return status, time.monotonic() - start, usage.ru_maxrss * 1024


print("                        names  seconds  memory MB  bytes a name")
for command, counts in COUNTS.items():
    for count in counts:
        runs = [run(command, count) for _ in range(3)]
        if any(status for status, _, _ in runs):
            print(f"{command:17}  {count:10,}  ended by {runs[0][0]}")
            continue
        seconds, held = min(it[1] for it in runs), min(it[2] for it in runs)
        print(f"{command:17}  {count:10,}  {seconds:7.3f}  {held / 1e6:9.1f}  {held / count:12.0f}")
PY
