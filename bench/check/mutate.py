"""Mutated inputs of all commands through the program: whatever the bytes are, a run ends by one line with a status of docs/FORMATS.md.

Each input is one of the stored runs or examples with some of it changed: as text (bytes turned, cut out, doubled, put in), or as JSON (a value replaced
by another one of the same input or by an extreme one, a member or an item taken away, doubled or renamed). A run breaches where it ends by a
signal or another status, where it does not write exactly one line to the stream of its status and nothing to the other, where it takes more than
10 processor seconds, or where 16 MB of address space and 100 bytes for each byte of its input do not suffice: it ends with status 3 then. The input
of a breach is written to a file, whose name is printed. An input goes by the seed and its number alone, however many are tried side by side.
The last line has the processor seconds of the slowest run, and of the runs on 30 KB and more the most bytes that one held at once, beside those of a run on
no bytes, for each byte of its input.

Usage: python3 -m bench mutate PROGRAM [COUNT [SEED [SIDE_BY_SIDE [FIRST]]]]
       (1000 inputs of some seed, as many side by side as there are processors, from number 0 on; an interrupt ends it with what was tried so far)
"""
import collections
import contextlib
import copy
import glob
import json
import multiprocessing
import os
import random
import re
import signal
import sys
import tempfile
import time

from bench.check.fork_server import ForkServer, compile_library
from bench.check.program_path import program_path

TOP = os.path.dirname(os.path.dirname(os.path.dirname(os.path.abspath(__file__))))
DATA = os.path.join(TOP, "crates/fast_check_vectors/data")
LINES = re.compile(rb"error: input refused: (unreadable|not-json|bad-form|table-fault [1-4]|ranges-not-admitted|invalid-export)\n")
EXTREMES = [None, True, False, 0, 1, -1, 2**31, 2**32 - 1, 2**32, 2**64 - 1, 2**64, 0.5, "", "\0", "a" * 1000, "\ud7ff\ue000", "__proto__", "http://[",
            "file:///", "default", "prototype", [], {}, [[]], [0, 0], [5, 3], [2**32 - 1, 0]]
SECONDS, FREE, PER_BYTE = 10, 16_000_000, 100
# From how many bytes on it is told what a run held for each: those of the program and its pages count for less there.
LARGE = 30_000
# Inputs that are handed to a worker at once.
PART = 200


def stored_inputs():
    """The files of all commands, with the command of each."""
    with open(os.path.join(DATA, "cases")) as file:
        runs = [line.split() for line in file if line.startswith(("transform ", "build ", "pair "))]
    found = {(command, os.path.join(DATA, rest[0])) for command, *rest in runs if len(rest) == 1 and rest[0].endswith(".json")}
    for path in glob.glob(os.path.join(TOP, "examples/*.json")):
        if not path.endswith(".answer.json"):
            found.add(("build" if "build_" in path else "pair" if "pair" in os.path.basename(path) else "transform", path))
    return sorted((command, path) for command, path in found if os.path.isfile(path) and os.path.getsize(path) < 200_000)


def places(value, found):
    """Each container of a value, with each of its keys."""
    if isinstance(value, (list, dict)):
        for key in range(len(value)) if isinstance(value, list) else list(value):
            found.append((value, key))
            places(value[key], found)
    return found


def turn_value(chance, value):
    """Changes one place of a JSON value."""
    all_places = places(value, [])
    if not all_places:
        return
    within, key = chance.choice(all_places)
    other, other_key = chance.choice(all_places)
    how = chance.randrange(6)
    if how == 0:
        del within[key]
    elif how == 1:
        within[key] = chance.choice(EXTREMES)
    elif how == 2:
        within[key] = copy.deepcopy(other[other_key])
    elif how == 3 and isinstance(within, list):
        within.insert(key, copy.deepcopy(within[key]))
    elif how == 4 and isinstance(within, dict) and isinstance(other, dict):
        within[other_key] = within.pop(key)
    elif isinstance(within[key], int):
        within[key] = max(0, within[key] + chance.choice([-2, -1, 1, 2, 1000]))
    else:
        within[key] = [copy.deepcopy(within[key])]


def turn_bytes(chance, text):
    """Changes some bytes of a text."""
    made = bytearray(text)
    for _ in range(chance.choice([1, 1, 2, 10])):
        at = chance.randrange(len(made) + 1)
        to = min(len(made), at + chance.choice([1, 1, 4, 100]))
        how = chance.randrange(5)
        if how == 0:
            made[at:to] = b""
        elif how == 1:
            made[at:at] = made[at:to] * chance.choice([1, 2, 50])
        elif how == 2:
            made[at:to] = bytes(chance.randrange(256) for _ in range(to - at))
        elif how == 3:
            made[at:at] = chance.choice([b"{", b"}", b"[", b"]", b'"', b",", b":", b"\\u0000", b"\\ud800", b"1e9", b"-", b"\xff", b"[" * 200])
        elif chance.random() < 0.2:
            del made[at:]
    return bytes(made)


def mutated(chance, text):
    """A text that has been changed in one of both ways."""
    if chance.random() < 0.3:
        return turn_bytes(chance, text)
    try:
        value = json.loads(text)
        for _ in range(chance.choice([1, 1, 1, 2, 3, 8])):
            turn_value(chance, value)
        return json.dumps(value, separators=(",", ":"), ensure_ascii=chance.random() < 0.5).encode("utf-8", "surrogatepass")
    except (ValueError, RecursionError):
        # no JSON, or nested deeper than Python walks, as where a value was put into itself several times
        return turn_bytes(chance, text)


def breach(ran):
    """What is wrong with a run, or None."""
    status, out, err, seconds, *_ = ran
    if seconds > SECONDS:
        return f"{seconds:.1f} seconds"
    if status not in (0, 1, 2):
        return f"status {status}"
    if status == 2 and (out or not LINES.fullmatch(err)):
        return f"status 2 with {out[:100]!r} and {err[:100]!r}"
    if status < 2 and (err or out.count(b"\n") != 1 or not out.endswith(b"\n")):
        return f"status {status} with {out.count(10)} lines and {err[:100]!r}"
    return None


class Tally:
    """How often each end came, how many runs breached, and the most that a run took."""

    def __init__(self):
        self.ends, self.breaches, self.seconds, self.held = collections.Counter(), [], 0.0, 0.0

    def add(self, ran, held):
        self.ends[ran.status, ran.err.decode(errors="replace").strip().removeprefix("error: input refused: ")] += 1
        self.seconds, self.held = max(self.seconds, ran.seconds), max(self.held, held)

    def join(self, other):
        self.ends, self.breaches = self.ends + other.ends, self.breaches + other.breaches
        self.seconds, self.held = max(self.seconds, other.seconds), max(self.held, other.held)


class Worker:
    """Tries inputs on a server of its own."""

    def __init__(self, program, library, seed):
        self.server, self.seed, self.inputs, self.texts = ForkServer(program, library), seed, stored_inputs(), {}
        self.idle = self.run("transform", b"").held

    def text(self, path):
        if path not in self.texts:
            with open(path, "rb") as file:
                self.texts[path] = file.read()
        return self.texts[path]

    def run(self, command, text):
        return self.server.run(command, text, FREE + PER_BYTE * len(text), SECONDS)

    def try_one(self, number, tally):
        chance = random.Random(f"{self.seed} {number}")
        command, path = chance.choice(self.inputs)
        text = mutated(chance, self.text(path))
        ran = self.run(command, text)
        tally.add(ran, (ran.held - self.idle) / len(text) if len(text) >= LARGE else 0)
        wrong = breach(ran)
        if wrong:
            kept = os.path.join(tempfile.gettempdir(), f"breach-{self.seed}-{number}.json")
            with open(kept, "wb") as file:
                file.write(text)
            tally.breaches.append(f"{command} {kept}: {wrong}")


def begin(*words):
    """Makes the worker of this process, which goes on where the script is interrupted."""
    global worker
    signal.signal(signal.SIGINT, signal.SIG_IGN)
    worker = Worker(*words)


def try_some(numbers):
    """Runs the inputs of these numbers."""
    tally = Tally()
    for number in numbers:
        worker.try_one(number, tally)
    return tally


def try_all(program, count, seed, beside, first):
    """The same of this many inputs from a number on, so many side by side, in parts of which each is told, and of how many: an interrupt ends them."""
    tally, done = Tally(), 0
    with tempfile.TemporaryDirectory() as folder:
        library = compile_library(folder)
        with multiprocessing.Pool(beside, begin, (program, library, seed)) as pool:
            numbers = [range(at, min(first + count, at + PART)) for at in range(first, first + count, PART)]
            with contextlib.suppress(KeyboardInterrupt):
                for part, told in zip(numbers, pool.imap(try_some, numbers)):
                    tally.join(told)
                    done += len(part)
                    for line in told.breaches:
                        print(line, flush=True)
                    if done % 10_000 < PART:
                        print(f"{done} done, the last of them {part[-1]}, breaches={len(tally.breaches)}", file=sys.stderr, flush=True)
    return tally, done


def main(words):
    if not words:
        print(__doc__)
        return 2
    program, count = program_path(words[0]), int(words[1]) if len(words) > 1 else 1000
    seed = int(words[2]) if len(words) > 2 else random.randrange(2**32)
    beside = int(words[3]) if len(words) > 3 else os.cpu_count()
    first = int(words[4]) if len(words) > 4 else 0
    # also where a shell began this behind another command, and let it ignore interrupts
    signal.signal(signal.SIGINT, signal.default_int_handler)
    print(f"seed={seed}", flush=True)
    began = time.monotonic()
    tally, done = try_all(program, count, seed, beside, first)
    for (status, line), times in sorted(tally.ends.items()):
        print(f"status {status} {line or 'and an answer'}: {times}")
    took = f"slowest={tally.seconds:.3f} held={tally.held:.0f} seconds={time.monotonic() - began:.0f}"
    print(f"inputs={done} breaches={len(tally.breaches)} seed={seed} {took}")
    return 1 if tally.breaches else 0


if __name__ == "__main__":
    sys.exit(main(sys.argv[1:]))
