"""Files and streams that are not as they should be, each with the status and the lines that have to come (docs/FORMATS.md).

Usage: python3 -m bench files PROGRAM
"""
import os
import resource
import subprocess
import sys
import tempfile

from bench.check.program_path import program_path

TOP = os.path.dirname(os.path.dirname(os.path.dirname(os.path.abspath(__file__))))
COMMANDS = {"transform": "examples/first.json", "build": "examples/build_hello.json", "pair": "examples/pair.json"}
UNREADABLE, NOT_JSON = b"error: input refused: unreadable\n", b"error: input refused: not-json\n"
NO_MEMORY = b"error: out of memory\n"
REFUSED, USAGE = b"error: output refused\n", b"usage: fast-check (build|transform|pair) FILE\n"
WAITS = "waits until it is ended from outside"
# Seconds after which a program counts as one that waits.
PATIENCE = 3
GIGABYTE = 1 << 30


def run(words, **streams):
    """The status of a run, or that it waits, with what it wrote to both streams."""
    streams = {"stdin": subprocess.DEVNULL, "stdout": subprocess.PIPE, "stderr": subprocess.PIPE, **streams}
    child = subprocess.Popen(words, **streams)
    try:
        out, err = child.communicate(timeout=PATIENCE)
    except subprocess.TimeoutExpired:
        child.kill()
        out, err = child.communicate()
        return WAITS, out or b"", err or b""
    return child.returncode, out or b"", err or b""


def full(words):
    with open("/dev/full", "wb") as full_disk:
        return run(words, stdout=full_disk)


def closed_pipe(words):
    reader, writer = os.pipe()
    os.close(reader)
    try:
        return run(words, stdout=writer)
    finally:
        os.close(writer)


def closed_output(words):
    return run(["sh", "-c", 'exec "$@" >&-', "sh", *words])


def full_errors(words):
    with open("/dev/full", "wb") as full_disk:
        return run(words, stderr=full_disk)


def with_a_limit(words):
    """With 16 bytes of output at most, so that a part of the answer is taken."""
    with tempfile.TemporaryFile() as out:
        child = subprocess.Popen(words, stdin=subprocess.DEVNULL, stdout=out, stderr=subprocess.PIPE, restore_signals=False,
                                 preexec_fn=lambda: resource.setrlimit(resource.RLIMIT_FSIZE, (16, 16)))
        _, err = child.communicate()
        out.seek(0)
        return child.returncode, out.read(), err


def with_a_limit_of_memory(words):
    """With 1 GB of address space."""
    child = subprocess.Popen(words, stdin=subprocess.DEVNULL, stdout=subprocess.PIPE, stderr=subprocess.PIPE,
                             preexec_fn=lambda: resource.setrlimit(resource.RLIMIT_AS, (GIGABYTE, GIGABYTE)))
    out, err = child.communicate()
    return child.returncode, out, err


def words_named(name, words):
    """Words that call a program by another name."""
    return ["bash", "-c", 'exec -a "$0" "$@"', name, *words]


def inputs(text):
    """What stands in files, each with what has to come."""
    mark = "\ufeff".encode()
    return {
        "an empty file": (b"", (2, b"", NOT_JSON)),
        "white space alone": (b" \n\t", (2, b"", NOT_JSON)),
        "UTF-16, with its mark": (text.decode().encode("utf-16"), (2, b"", NOT_JSON)),
        "UTF-16, low byte first": (text.decode().encode("utf-16-le"), (2, b"", NOT_JSON)),
        "UTF-16, high byte first": (text.decode().encode("utf-16-be"), (2, b"", NOT_JSON)),
        "a byte order mark before the JSON": (mark + text, (2, b"", NOT_JSON)),
        "a byte that is not UTF-8": (text.replace(b'"', b'"\xff', 1), (2, b"", NOT_JSON)),
        "a zero byte behind the JSON": (text + b"\0", (2, b"", NOT_JSON)),
        "two JSON values": (text + b"{}", (2, b"", NOT_JSON)),
        "127 arrays in one another": (b"[" * 127 + b"]" * 127, (2, b"", b"error: input refused: bad-form\n")),
        "128 arrays in one another": (b"[" * 128 + b"]" * 128, (2, b"", NOT_JSON)),
        "a million arrays that open": (b"[" * 1_000_000, (2, b"", NOT_JSON)),
    }


class Check:
    """Runs that were made, and how many of them differ."""

    def __init__(self):
        self.runs = self.differing = 0

    def that(self, name, ran, wanted):
        self.runs += 1
        if ran != wanted:
            self.differing += 1
            print(f"{name}: {ran!r:.300} in place of {wanted!r:.300}")


def check_command(check, program, command, folder):
    path = os.path.join(TOP, COMMANDS[command])
    words, name = [program, command], lambda what: f"{command}, {what}"
    answer = run([*words, path])
    check.that(name("the example"), (answer[0], answer[1].count(b"\n"), answer[2]), (0, 1, b""))
    for what, ran in {"a full disk": full, "a pipe without reader": closed_pipe, "a closed output": closed_output}.items():
        check.that(name(what), ran([*words, path]), (4, b"", REFUSED))
    check.that(name("a limit of 16 bytes"), with_a_limit([*words, path]), (4, answer[1][:16], REFUSED))
    check.that(name("a full disk for errors"), full_errors([*words, folder + "/none"]), (2, b"", b""))
    with open(path, "rb") as file:
        whole = file.read()
    made = os.path.join(folder, "input.json")
    # Each proper beginning of the example.
    for length in range(len(whole.rstrip())):
        with open(made, "wb") as file:
            file.write(whole[:length])
        check.that(name(f"its first {length} bytes"), run([*words, made]), (2, b"", NOT_JSON))
    for what, (text, wanted) in inputs(whole).items():
        with open(made, "wb") as file:
            file.write(text)
        check.that(name(what), run([*words, made]), wanted)
    # A read that fails: of a process's memory at its first byte, which stands at no place.
    places = {"a folder": folder, "no file": folder + "/none", "a file below a file": path + "/x", "a read that fails": "/proc/self/mem", "": ""}
    for what, place in places.items():
        check.that(name(what or "an empty name"), run([*words, place]), (2, b"", UNREADABLE))
    with open(made, "wb") as file:
        file.truncate(GIGABYTE)
    check.that(name("a file of 1 GB, with as much address space"), with_a_limit_of_memory([*words, made]), (3, b"", NO_MEMORY))
    check.that(name("/dev/null"), run([*words, "/dev/null"]), (2, b"", NOT_JSON))
    fifo = os.path.join(folder, command)
    os.mkfifo(fifo)
    check.that(name("a FIFO without writer"), run([*words, fifo]), (WAITS, b"", b""))
    check.that(name("a name of the program that is no text"), run(words_named(b"\xff", [*words, path])), answer)
    check.that(name("standard input, from a pipe"), run(["sh", "-c", 'cat "$1" | "$2" "$3" /dev/stdin', "sh", path, *words]), answer)


def main(words):
    if len(words) != 1:
        print(__doc__)
        return 2
    program, check = program_path(words[0]), Check()
    with tempfile.TemporaryDirectory() as folder:
        for command in COMMANDS:
            check_command(check, program, command, folder)
        for wrong in [[], ["transform"], ["transform", "a", "b"], ["other", "a"], [b"\xff", "a"], ["transform", b"\xff", "b"], ["transform", "a", b"\xff"]]:
            check.that(f"the words {wrong}", run([program, *wrong]), (2, b"", USAGE))
        check.that("a FIFO for no command", run([program, "other", os.path.join(folder, "transform")]), (2, b"", USAGE))
        for name in [b"\xff", b"\xff" * 40]:
            check.that(f"the file {name}", run([program, "transform", name]), (2, b"", UNREADABLE))
    print(f"runs={check.runs} differing={check.differing}")
    return 1 if check.differing else 0


if __name__ == "__main__":
    sys.exit(main(sys.argv[1:]))
