"""How the time of a program grows with its input: what runs in three sizes take, and the exponent."""
import functools
import json
import math
import multiprocessing
import os
import subprocess
import tempfile

from bench.check.program_path import program_path

MOST_EXPONENT, RUNS = 1.2, 3


def run(program, path, command="build"):
    """The status, the processor seconds and the bytes held of a run."""
    child = subprocess.Popen(["timeout", "120", program, command, path], stdout=subprocess.DEVNULL, stderr=subprocess.DEVNULL)
    _, status, usage = os.wait4(child.pid, 0)
    child.returncode = os.waitstatus_to_exitcode(status)
    return child.returncode, usage.ru_utime + usage.ru_stime, usage.ru_maxrss * 1024


@functools.cache
def runner():
    """A process that holds little. What a process starts is said to have held at least what it held itself, and here that is whole inputs."""
    return multiprocessing.get_context("spawn").Pool(1)


def spent(program, made, command="build", runs=RUNS):
    """The bytes of an input, and the status, the processor seconds and the bytes held of the quickest of so many runs on it: what else the machine does
    makes a run slower, and none quicker."""
    with tempfile.NamedTemporaryFile("w", suffix=".json") as file:
        json.dump(made, file, separators=(",", ":"))
        file.flush()
        ran = (runner().apply(run, (program, file.name, command)) for _ in range(runs))
        return os.path.getsize(file.name), *min(ran, key=lambda each: each[1])


def exponent(points):
    """The slope of a line through the logarithms of the points."""
    xs, ys = [math.log(x) for x, _ in points], [math.log(max(y, 0.001)) for _, y in points]
    x, y = sum(xs) / len(xs), sum(ys) / len(ys)
    return sum((a - x) * (b - y) for a, b in zip(xs, ys)) / sum((a - x) ** 2 for a in xs)


HEADER = f"{'shape':40} {'largest':>8} {'MB':>8} {'status':>6} {'seconds':>8} {'twice':>8} {'4 times':>8} {'held':>8} {'exponent':>8}"


def row(name, largest, runs, grows, said):
    """The line of a shape, under HEADER."""
    size, _, _, held = runs[-1]
    statuses = "/".join(str(each) for each in sorted({status for _, status, _, _ in runs}))
    seconds = " ".join(f"{each:8.2f}" for _, _, each, _ in runs)
    return f"{name:40} {largest:8} {size / 1e6:8.2f} {statuses:>6} {seconds} {held / size:8.0f} {grows:8.2f}{said}"


def measured(words, usage, names, measure, counted, missed):
    """Measures the shapes that the words name behind a program, or all. Prints how many there are and how many are not as they should be. Answers a status."""
    if not words or any(word not in names for word in words[1:]):
        print(usage + "\nShapes: " + " ".join(names))
        return 2
    program = program_path(words[0])
    print(HEADER)
    good = [measure(program, name) for name in words[1:] or names]
    print(f"{counted}={len(good)} {missed}={good.count(False)}")
    return 0 if all(good) else 1
