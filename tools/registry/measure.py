#!/usr/bin/python3
"""Times registry.py on packages of bench/time/build.py, each a file of its own: on one worker, on four, and on four of which one is killed in the middle.

The program has to be built (`./fast-check build examples/build_hello.json`), or named by the variable FAST_CHECK.

Usage: tools/registry/measure.py [PACKAGES]        (1000)
"""
import io
import json
import os
import signal
import sys
import tempfile
import time
from pathlib import Path

HERE = Path(__file__).resolve().parent
sys.dont_write_bytecode = True
sys.path[:0] = [str(HERE), str(HERE.parent.parent)]
os.environ["PYTHONPATH"] = str(HERE)
os.environ["PYTHONDONTWRITEBYTECODE"] = "1"

import registry
from bench.time.build import workspace
from distributed import Client

BUILT = registry.TOP / "crates/fast_check_cli/out/fast_check_cli"


def make(folder, count):
    """So many packages of three to ten modules, each third of them with faults."""
    made = []
    for place in range(count):
        file = Path(folder) / f"{place}.json"
        file.write_text(json.dumps(workspace("faults" if place % 3 == 2 else "packages", 1, 3 + place % 8)))
        made.append(str(file))
    return made


def measure(packages, program, workers, kill=False):
    """The seconds of a run, and how many packages were lost."""
    cluster, out = registry.local(workers), io.StringIO()
    with Client(cluster) as client:
        client.wait_for_workers(workers)

        def on_done(done):
            if kill and done == len(packages) // 2:
                os.kill(next(iter(client.run(os.getpid).values())), signal.SIGKILL)

        begun = time.monotonic()
        _, lost = registry.Registry(client, packages, program, {"memory": registry.size("2G"), "seconds": 600}, 3).run(out, on_done)
        spent = time.monotonic() - begun
    cluster.close()
    results = sorted([json.loads(line) for line in out.getvalue().splitlines()], key=lambda it: packages.index(it["package"]))
    assert [it["package"] for it in results] == packages, "a result is missing, or stands twice"
    return spent, lost, [it.get("status") for it in results]


def main():
    count = int(sys.argv[1]) if len(sys.argv) > 1 else 1000
    program = {"top": str(registry.TOP), "path": os.environ.get("FAST_CHECK", str(BUILT))}
    first = None
    with tempfile.TemporaryDirectory() as folder:
        packages = make(folder, count)
        print(f"{count} packages, {sum(os.path.getsize(it) for it in packages) / 1e6:.0f} MB")
        for workers, kill in ((1, False), (4, False), (4, True)):
            spent, lost, statuses = measure(packages, program, workers, kill)
            first = first or statuses
            what = f"{workers} worker{'s' if workers > 1 else ''}{', one killed in the middle' if kill else ''}"
            print(f"{what}: {spent:.1f} s, {count / spent:.0f} a second, {len(lost)} lost, {statuses.count(1)} with messages, answers {'alike' if statuses == first else 'DIFFER'}")


if __name__ == "__main__":
    main()
