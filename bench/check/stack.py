"""The stack that a level of nesting takes: the program runs on each of these shapes, ever deeper, with as little stack as it answers with.

A line for each shape: the levels of the deepest run (JSON is at most 127 deep, and a level of a tree is two to seven levels of JSON), the kilobytes
of stack with which the shallowest and the deepest run still answer, the bytes that each level adds, and how many levels 8 MB would hold. The last
shapes are nested by tables alone, which a JSON depth does not bound: they have to answer at each depth with the same stack.

Usage: python3 -m bench stack PROGRAM [SHAPE ..]    under `ulimit -s unlimited`, since this script nests its inputs as deep
"""
import json
import os
import subprocess
import sys
import tempfile

from bench.cases import hostile_shapes
from bench.cases.runs import request
from bench.check.program_path import program_path
from bench.oracle.items import ONE, const, func, if_
from bench.oracle.module_trees import namespace
from bench.oracle.trees import (
    array, array_of, arrow, as_, binary, block, call, cond, exported, lay_items, member, name, object_, pair, paren, ref, returned,
)

sys.setrecursionlimit(100_000)

EIGHT_MEGABYTES, PAGE, LARGEST = 8 << 20, 4096, 64 << 20


def nested(around, inmost, depth):
    for _ in range(depth):
        inmost = around(inmost)
    return inmost


def written_type(depth):
    return const(name("x", nested(array_of, "number", depth)), ONE)


def value_of(around, inmost=ONE):
    return lambda depth: const(name("x"), nested(around, inmost, depth))


def statements(depth):
    return func("f", [], nested(lambda inside: if_(ref("a"), {"Block": block(inside)}), returned(ONE), depth))


def namespaces(depth):
    return nested(lambda item: exported(namespace("N", item)), const(name("x", "number"), ONE), depth)


# By one item, in a module that makes it public.
TREES = {
    "parentheses": value_of(paren),
    "arrays": value_of(array),
    "objects": value_of(lambda value: object_(pair("a", value))),
    "sums": value_of(lambda value: binary(value, "+", ONE)),
    "calls": value_of(lambda value: call(ref("f"), value)),
    "members": value_of(lambda value: member(value, "a"), ref("a")),
    "choices": value_of(lambda value: cond(ref("a"), value, ONE)),
    "assertions": value_of(lambda value: as_(value, "number")),
    "arrows": value_of(lambda value: arrow([], value)),
    "functions": value_of(lambda value: arrow([], block(returned(value)))),
    "types": written_type,
    "statements": statements,
    "namespaces": namespaces,
}


def spans(node):
    """The ranges of all nodes of a tree."""
    inside = node.values() if isinstance(node, dict) else node if isinstance(node, list) else ()
    own = [node["span"]] if isinstance(node, dict) and "span" in node else []
    return own + [span for each in inside for span in spans(each)]


def tree_request(shape, depth):
    """A module of one item, of which all is public."""
    items, text = lay_items([TREES[shape](depth)])
    return "transform", request(text, items, sorted(map(list, set(map(tuple, spans(items))))))


def json_request(depth):
    """Arrays in a member that is passed over."""
    return "transform", {**tree_request("arrays", 1)[1], "other": nested(lambda value: [value], 0, depth)}


# Of tables: no JSON is nested. Each with the depths that are tried.
TABLES = {
    "nested namespaces of tables": (hostile_shapes.nested_namespaces, (10, 1000, 100_000)),
    "chain of aliases": (hostile_shapes.alias_chain, (10, 1000, 1_000_000)),
    "path of names": (hostile_shapes.path_of_names, (10, 1000, 100_000)),
    "own parents": (hostile_shapes.own_parents, (10, 1000, 100_000)),
    "path behind a file": (hostile_shapes.path_behind_a_file, (10, 1000, 1_000_000)),
    "paths that part behind a file": (hostile_shapes.paths_that_part_behind_a_file, (10, 1000, 10_000)),
    "namespaces behind a file": (hostile_shapes.namespaces_behind_a_file, (10, 1000, 100_000)),
    "path through files": (hostile_shapes.path_through_files, (10, 100, 1000)),
    "paths covered": (hostile_shapes.paths_covered_of_many_lengths, (10, 100, 1000)),
}


class Runner:
    """Runs a program on a request with a limit of its stack."""

    def __init__(self, program, folder):
        self.program, self.path = program, os.path.join(folder, "input.json")

    def put(self, made):
        with open(self.path, "w") as file:
            json.dump(made, file, separators=(",", ":"))

    def answers(self, command, stack):
        words = ["setarch", "-R", "prlimit", f"--stack={stack}", self.program, command, self.path]
        return subprocess.run(words, env={}, stdin=subprocess.DEVNULL, stdout=subprocess.DEVNULL, stderr=subprocess.DEVNULL).returncode

    def least(self, command):
        """The least stack, in whole pages, with which it answers. None where it refuses the input, or LARGEST does not suffice."""
        if self.answers(command, LARGEST) not in (0, 1):
            return None
        low, high = 0, LARGEST // PAGE
        while high - low > 1:
            middle = (low + high) // 2
            if self.answers(command, middle * PAGE) in (0, 1):
                high = middle
            else:
                low = middle
        return high * PAGE


def least_of(runner, command, made):
    runner.put(made)
    return runner.least(command)


def told(shape, levels, first, last):
    a_level = (last - first) / (levels[1] - levels[0])
    holds = f"{EIGHT_MEGABYTES / a_level:12,.0f}" if a_level >= 1 else f"{'any':>12}"
    print(f"{shape:28} {levels[0]:8} {first // 1024:8} {levels[1]:8} {last // 1024:8} {a_level:10.0f} {holds}", flush=True)


def deepest(runner, made_of):
    """The deepest that the program reads."""
    for depth in range(125, 1, -1):
        command, made = made_of(depth)
        runner.put(made)
        if runner.answers(command, LARGEST) in (0, 1):
            return depth
    return None


def measure_tree(runner, shape, made_of):
    depth = deepest(runner, made_of)
    if depth is None:
        print(f"{shape:28} is refused at each depth", flush=True)
        return False
    (command, shallow), (_, deep) = made_of(2), made_of(depth)
    told(shape, (2, depth), least_of(runner, command, shallow), least_of(runner, command, deep))
    return True


def measure_tables(runner, shape):
    make, depths = TABLES[shape]
    found = [least_of(runner, "build", make(depth)) for depth in depths]
    if None in found:
        print(f"{shape:28} does not answer at {depths[found.index(None)]}", flush=True)
        return False
    told(shape, (depths[0], depths[-1]), found[0], found[-1])
    return max(found) - min(found) <= 4 * PAGE


def main(words):
    known = [*TREES, "JSON", *TABLES]
    if not words or any(word not in known for word in words[1:]):
        print(__doc__ + "\nShapes: " + ", ".join(known))
        return 2
    good, program = [], program_path(words[0])
    print(f"{'shape':28} {'levels':>8} {'KB':>8} {'levels':>8} {'KB':>8} {'a level':>10} {'8 MB hold':>12}")
    with tempfile.TemporaryDirectory() as folder:
        runner = Runner(program, folder)
        for shape in words[1:] or known:
            if shape in TABLES:
                good.append(measure_tables(runner, shape))
            else:
                good.append(measure_tree(runner, shape, json_request if shape == "JSON" else lambda depth: tree_request(shape, depth)))
    print(f"shapes={len(good)} wrong={good.count(False)}")
    return 0 if all(good) else 1


if __name__ == "__main__":
    sys.exit(main(sys.argv[1:]))
