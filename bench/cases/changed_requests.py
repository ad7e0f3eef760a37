"""Runs whose request is a known one with some members changed. Files of the folder `changed` have them, a line each below a title `# ..`:

    NAME: CHANGES              refused as `bad-form`
    NAME | WORD: CHANGES       refused by another word, or answered by the answer of this name
    let $NAME = TEXT           what stands for $NAME in the lines below

Changes are parted by `; `. `of NAME` is the request that is changed, where it is not the first one; `-PATH` takes a member away, and `PATH = JSON` sets one.
"""
import json
import os

from bench.oracle.trees import unshared

HERE = os.path.dirname(os.path.abspath(__file__))


def changed(request, *changes):
    """A request in which the members at paths have other values; `...` takes a member away."""
    request = unshared(request)
    for path, value in changes:
        node = request
        *steps, last = [int(step) if step.isdigit() else step for step in path.split(".")]
        for step in steps:
            node = node[step]
        if value is ...:
            del node[last]
        elif isinstance(node, list) and last == len(node):
            node.append(value)
        else:
            node[last] = value
    return request


def parsed(text):
    """The name of a request, or None, and its changes."""
    base, changes = None, []
    for each in text.split("; ") if text else []:
        if each.startswith("of "):
            base = each[3:]
        elif each.startswith("-"):
            changes.append((each[1:], ...))
        else:
            path, _, value = each.partition(" = ")
            changes.append((path, json.loads(value)))
    return base, changes


def sections(file):
    """Each title of a file with its lines: a name, a word, and what `parsed` reads."""
    found, lets = [], {}
    with open(os.path.join(HERE, "changed", file), encoding="utf-8") as lines:
        for line in filter(None, lines.read().split("\n")):
            for name, text in lets.items():
                line = line.replace(name, text)
            if line.startswith("let "):
                name, _, text = line[4:].partition(" = ")
                lets = {name: text, **lets}
            elif line.startswith("# "):
                found.append((line[2:], []))
            else:
                head, _, changes = line.partition(":")
                name, _, word = head.partition(" | ")
                found[-1][1].append((name, word or "bad-form", *parsed(changes.strip())))
    return found
