"""Random pairs of name sets through the calls of `fast_check_finder_lattice`, against plain sets of paths.

Both sets of a pair are trees of at most three names at a level and four levels: each name is demanded whole, has a subset that may be empty, or is
absent. In one of fifty pairs both have 50 to 200 names more at their first level, of which some begin alike. For each pair the one is extended by the
other; then random calls change it: `add`, `add_qualified`, `add_named`. After each call the answer, what the set has and its `node_count` have to be those of
the trees, by the rules of docs/proofs/rules.md; at the end the set has to equal itself, and not itself with one name more.

Usage: python3 -m bench random_names PROGRAM [PAIRS [SEED]]
PROGRAM runs the calls of the file `names` in its folder when its word is `names`, as the program of all cases does.
"""
import os
import random
import subprocess
import sys
import tempfile

from bench.check.program_path import VECTORS, program_path

NAMES = ("a", "b", "c", "default")
LEVELS = 4
WIDE = [f"{word}{number}" for word in ("n", "name", "a_name_of_many_letters_") for number in range(100)]
PAIRS_A_RUN, PAIRS_A_WIDE_ONE = 500, 50


def random_tree(random_, levels=LEVELS):
    """A set: for each of its names `None`, which is all of it, or the set below."""
    tree = {}
    for name in random_.sample(NAMES, random_.randrange(len(NAMES))):
        is_whole = levels == 1 or random_.random() < 0.4
        tree[name] = None if is_whole else random_tree(random_, levels - 1)
    return tree


def widened(random_, tree):
    """The same set with many names more, each whole or with one name below it."""
    names = random_.sample(WIDE, random_.randrange(50, 200))
    return {**tree, **{name: None if random_.random() < 0.7 else {random_.choice(NAMES): None} for name in names}}


def written(tree, before=""):
    """The paths of a set, as they are written and told: in the order of their names."""
    paths = []
    for name, below in sorted(tree.items()):
        if below is None:
            paths.append(before + name)
        elif below:
            paths += written(below, f"{before}{name}.")
        else:
            paths.append(f"{before}{name}.")
    return paths


def joined(old, new):
    """What is in either. All of a name has what stands below it."""
    if old is None or new is None:
        return None
    both = dict(old)
    for name, below in new.items():
        both[name] = joined(old[name], below) if name in old else below
    return both


def lacking(old, new):
    """The least set with which `old` has all of `new`."""
    lacks = {}
    for name, below in new.items():
        if name not in old:
            lacks[name] = below
        elif old[name] is not None:
            if below is None:
                lacks[name] = None
            else:
                more = lacking(old[name], below)
                if more:
                    lacks[name] = more
    return lacks


def nodes(tree):
    """One more than the subsets of a set."""
    return 1 + sum(nodes(below) for below in tree.values() if below is not None)


def path_tree(path):
    """The set of one path, which is demanded whole."""
    tree = None
    for name in reversed(path):
        tree = {name: tree}
    return tree


def told(tree):
    return " ".join(written(tree)) or "no name"


def without_deep_ends(tree, levels):
    """The same with each empty subset below these levels whole: the files of calls have no word for it."""
    if tree is None or levels == 0 and not tree:
        return None
    return {name: without_deep_ends(below, max(levels - 1, 0)) for name, below in tree.items()}


def is_written(tree):
    """Whether words can write a set: no subset below its first level is empty."""
    return tree == without_deep_ends(tree, 2)


def make(tree):
    """The lines that make a set."""
    lines = ["set"]
    for name, below in sorted(tree.items()):
        lines.append(f"add {name}" if below is None else " ".join(["add_named", name, *written(below)]))
    return lines


def random_change(random_, tree):
    """A call that adds to a set, and the set that it leaves."""
    first = random_.choice(WIDE if len(tree) > len(NAMES) and random_.random() < 0.7 else NAMES)
    path = [first, *(random_.choice(NAMES) for _ in range(random_.randrange(LEVELS)))]
    kind = random_.choice(("add", "add_qualified", "add_named"))
    if kind == "add":
        return f"add {path[0]}", joined(tree, {path[0]: None})
    if kind == "add_qualified":
        return " ".join(["add_qualified", *path]), joined(tree, path_tree(path))
    below = {name: None for name in path[1:]}
    return " ".join(["add_named", path[0], *written(below)]), joined(tree, {path[0]: below})


def calls_of(random_, tree, other):
    """The calls of a pair: each line with what has to be told of it, None where nothing is compared."""
    calls = [(line, None) for line in make(tree)]
    calls.append(("node_count", str(nodes(tree))))
    answer, tree = lacking(tree, other), joined(tree, other)
    calls.append((" ".join(["extend", *written(other)]), f"answers {told(answer)}, leaves {told(tree)}"))
    for _ in range(3):
        line, tree = random_change(random_, tree)
        calls += [(line, f"leaves {told(tree)}"), ("node_count", str(nodes(tree)))]
    if is_written(tree):
        calls.append((" ".join(["equals", *written(tree)]), "true"))
        calls.append((" ".join(["equals", *written({**tree, "z": None})]), "false"))
    return calls


def run(program, calls):
    """What the program prints of each call."""
    with tempfile.TemporaryDirectory() as room:
        with open(os.path.join(room, "names"), "w") as file:
            file.writelines(f"{line}\n" for line, _ in calls)
        done = subprocess.run([program, "names"], cwd=room, capture_output=True, text=True, check=True)
    lines = done.stdout.splitlines()
    return [answer.strip() for answer in lines[1::2]]


def main(words):
    program = program_path(words[0], VECTORS)
    count = int(words[1]) if len(words) > 1 else 20_000
    seed = int(words[2]) if len(words) > 2 else 1
    random_ = random.Random(seed)
    made = compared = differ = 0
    while made < count:
        calls = []
        for _ in range(min(PAIRS_A_RUN, count - made)):
            pair = without_deep_ends(random_tree(random_), 3), without_deep_ends(random_tree(random_), 2)
            if made % PAIRS_A_WIDE_ONE == 0:
                pair = [widened(random_, tree) for tree in pair]
            calls += calls_of(random_, *pair)
            made += 1
        answers = run(program, calls)
        if len(answers) != len(calls):
            sys.exit(f"{len(calls)} calls and {len(answers)} answers")
        for (line, wanted), answer in zip(calls, answers):
            if wanted is not None:
                compared += 1
                if answer != wanted:
                    differ += 1
                    print(f"{line}\n    {answer}\nwanted:\n    {wanted}")
    print(f"{made} pairs of seed {seed}, {compared} answers compared: {differ} differ")
    return int(differ > 0)


if __name__ == "__main__":
    sys.exit(main(sys.argv[1:]))
