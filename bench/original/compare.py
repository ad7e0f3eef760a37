"""Compares a program `fast-check` with the original.

usage: compare.py PROGRAM OUT [FILE ..]                       inputs of transform, build or pair; without any, all stored runs and those with a cache
       compare.py PROGRAM OUT --random KIND COUNT [SEED]      modules, builds, pairs or worlds that the random checks make
       compare.py PROGRAM OUT --packages DIR ..               packages of TypeScript, by the input that fast-check-ts makes of each
       also: --list FILE (more files, or folders, a line each), --change deno (in the input of the program no single return names a type, so the rules are
             the original's), --change ranges (the trees of builds are replaced by ones whose skeletons show each public range), --jobs N,
             --json FILE (all verdicts), --keep DIR (the inputs that differ)

PROGRAM is `./fast-check`'s or what `tools/unproved` prints; OUT is what build.py has made. Printed is how many runs have which verdict, with two of each:

    same                     byte for byte
    same but for ..          what normal.py takes for the same
    explained by ..          the original gives the program's answer once these listed differences are switched on in it (patches.py), and by no fewer
    refused ..               the program refuses the input; what the original does
    DIFFERS                  nothing listed explains it

The status is 1 where a run DIFFERS.
"""
import argparse
import collections
import json
import os
import subprocess
import sys
import tempfile
from concurrent.futures import ThreadPoolExecutor
from pathlib import Path

from bench.original import normal, patches
from bench.original.inputs import runs_of, cached_runs, files_of, package_input, random_inputs, stored_files

sys.setrecursionlimit(1000000)
WORDS = {"transform": ("else_branch", "single_return", "faulty_arrow")}
ENDINGS = {101: "panics", -6: "does not end", -9: "does not end", -24: "does not end", -11: "does not end"}
# a search that does not end takes memory too
LIMITS = 'ulimit -t {}; ulimit -v 1500000; exec "$@"'
SECONDS_A_MEGABYTE = 10


class Ran:
    """A run on a file: its status, or how else it ended, and what it printed."""

    def __init__(self, program, command, file, **variables):
        seconds = 1 + SECONDS_A_MEGABYTE * os.path.getsize(file) // 1_000_000
        words = ["sh", "-c", LIMITS.format(seconds), "sh", program, command, file]
        done = subprocess.run(words, stdin=subprocess.DEVNULL, capture_output=True, env={**os.environ, **variables})
        self.status = ENDINGS.get(done.returncode, done.returncode)
        self.out, self.err = done.stdout.decode("utf8", "replace"), done.stderr.decode("utf8", "replace")

    def answers(self):
        return self.status in (0, 1)


def same(ours, theirs):
    """The notes of two runs, None where they differ."""
    if ours.status != theirs.status or not ours.answers():
        return None
    return normal.same(ours.out, theirs.out)


class Comparison:
    def __init__(self, program, out, left_out=()):
        self.program, self.original, self.explain = program, out / "original", out / "explain"
        self.words = [patch.name for patch in patches.DIFFERENCES if patch.name not in left_out]

    def verdict(self, command, ours_of, theirs_of):
        """`ours_of` is the input of the program, `theirs_of` that of the original; they are one but under a change."""
        ours = Ran(self.program, command, ours_of)
        theirs = Ran(self.original, command, theirs_of)
        if not ours.answers():
            why = ours.err.strip().replace("error: input refused: ", "") or ours.status
            return f"refused as {why}, where the original {'answers' if theirs.answers() else 'panics' if theirs.status == 'panics' else 'refuses'}"
        notes = same(ours, theirs)
        if notes is not None:
            return "same" + (" but for " + ", ".join(sorted(notes)) if notes else "")
        told = f"{ours.status} here, {theirs.status} there"
        return self.explained(command, ours, theirs_of, told) or f"DIFFERS ({told})"

    def explained(self, command, ours, file, told):
        """By which of the listed differences the original answers alike."""
        def notes_with(words):
            return same(ours, Ran(self.explain, command, file, EXPLAIN=",".join(words)))

        all_words = [word for word in self.words if word in WORDS.get(command, self.words)]
        # a difference may stand in for what another one shows, so each is left out in turn
        starts = [all_words] + [[each for each in all_words if each != word] for word in all_words]
        words, notes = next(((words, notes) for words in starts for notes in [notes_with(words)] if notes is not None), (None, None))
        if words is None:
            return None
        for word in list(words):
            fewer = [each for each in words if each != word]
            left = notes_with(fewer)
            if left is not None:
                words, notes = fewer, left
        return f"explained by {', '.join([*words, *sorted(notes & {'order', 'once'})])} ({told})"

    def rebuilt(self, run, stored):
        """The verdict on a run with a cache, against the stored lines, which are the program's."""
        with tempfile.NamedTemporaryFile("w", suffix=".json") as file:
            json.dump(run, file)
            file.flush()
            given = lambda words: numbered(Ran(self.explain if words else self.original, "rebuild", file.name, EXPLAIN=",".join(words)))
            if given([]) == numbered_lines(stored):
                return "same"
            words = list(self.words)
            if given(words) != numbered_lines(stored):
                return "DIFFERS"
            for word in list(words):
                fewer = [each for each in words if each != word]
                words = fewer if given(fewer) == numbered_lines(stored) else words
            return f"explained by {', '.join(words)}"


def numbered_lines(lines):
    """Lines in which the keys of a cache are numbered as they come."""
    keys, found = {}, []
    for line in lines:
        if line.startswith("    sets "):
            key, rest = line[len("    sets "):].split(":", 1)
            line = f"    sets {keys.setdefault(key, len(keys))}:{rest}"
        found.append(line)
    return found


def numbered(ran):
    return numbered_lines(ran.out.splitlines()) if ran.answers() else [ran.status]


def compare_files(comparison, args, folder, files):
    jobs = [job for file in files for job in runs_of(file, folder, args.change)]

    def one(job):
        name, command, ours, theirs = job
        verdict = comparison.verdict(command, ours, theirs)
        if args.keep and "DIFFERS" in verdict:
            args.keep.mkdir(exist_ok=True)
            (args.keep / f"{name}.json").write_bytes(Path(theirs).read_bytes())
        for made in {ours, theirs} if args.forget else ():
            os.unlink(made)
        return command, name, verdict

    with ThreadPoolExecutor(args.jobs) as pool:
        return list(pool.map(one, jobs))


def compare_all(comparison, args, folder):
    """All verdicts: the command, the input's name, and what is said of it."""
    if args.random:
        kind, count, seed = (args.random + ["1"])[:3]
        found = []
        for files in random_inputs(kind, int(count), int(seed), folder):
            found += compare_files(comparison, args, folder, files)
        return found
    if args.packages:
        made = [package_input(directory, folder) for directory in args.files + files_of(args.list)]
        return compare_files(comparison, args, folder, [file for file in made if file])
    files = args.files + files_of(args.list)
    found = compare_files(comparison, args, folder, files or stored_files())
    if not files and not args.change:
        found += [("rebuild", run["name"], comparison.rebuilt(run, lines)) for run, lines in cached_runs()]
    return found


def report(found):
    counts, examples = collections.Counter(), collections.defaultdict(list)
    for command, name, verdict in found:
        counts[command, verdict] += 1
        examples[command, verdict].append(name)
    for (command, verdict), count in sorted(counts.items(), key=lambda it: (it[0][0], -it[1])):
        print(f"{count:7} {command}: {verdict}    ({', '.join(examples[command, verdict][:2])})")
    differ = [name for _, name, verdict in found if verdict.startswith("DIFFERS")]
    print(f"{len(found)} runs, {len(differ)} differ")
    return bool(differ)


def main():
    parser = argparse.ArgumentParser(usage=__doc__)
    parser.add_argument("program", type=os.path.abspath)
    parser.add_argument("out", type=Path)
    parser.add_argument("files", nargs="*")
    parser.add_argument("--list")
    parser.add_argument("--random", nargs="+")
    parser.add_argument("--packages", action="store_true")
    parser.add_argument("--change", choices=("deno", "ranges"))
    parser.add_argument("--jobs", type=int, default=2)
    parser.add_argument("--json")
    parser.add_argument("--keep", type=Path)
    args = parser.parse_intermixed_args()
    args.forget = bool(args.random)
    with tempfile.TemporaryDirectory() as folder:
        left_out = ["single_return"] if args.change == "deno" else []
        found = compare_all(Comparison(args.program, args.out.resolve(), left_out), args, Path(folder))
    if args.json:
        Path(args.json).write_text(json.dumps(found))
    return report(found)


if __name__ == "__main__":
    sys.exit(main())
