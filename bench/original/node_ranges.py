"""Checks what nodes.py states from memory against the trees and tables that `fast-check-ts input --reader typescript` makes, which come from TypeScript's compiler.

usage: node_ranges.py FILE ..      inputs of build, as it prints them; status 1 where something differs

Each range of a declaration in the tables has to be the range of a node of the tree, by the rules of nodes.py. And the visitor sees the fields of a node in the order
of the table: printed are the pairs of fields of which that is not the order of the text, with how often it is not.
"""
import collections
import json
import sys
from pathlib import Path

from bench.original.nodes import LEAVES, RANGES, TABLE
from table import Table  # noqa: E402, on the path by nodes

FORMS = Table(TABLE.read_text())
# the field, or the two fields, whose ranges are the range of a node without one
PARTS = {name: [part.split("self.")[-1].split(".")[0] for part in text.replace(".unwrap_or(self.expr.span())", "").split(".to(")] for name, text in RANGES.items()}


class Tree:
    """The ranges of the nodes of a tree, and how often a field stands before one that the table has before it."""

    def __init__(self, program):
        self.ranges, self.swapped = set(), collections.Counter()
        self.visit("Program", program)

    def visit(self, kind, value):
        """The range of what stands at a place, None where nothing does."""
        if value is None or kind in FORMS.words:
            return None
        if isinstance(value, list):
            found = [each for each in (self.visit(kind, each) for each in value) if each]
            return [found[0][0], found[-1][1]] if found else None
        if kind in FORMS.choices:
            (variant, inside), = value.items()
            return self.visit(dict(FORMS.choices[kind].variants)[variant], inside)
        return self.form(FORMS.forms[kind], value)

    def form(self, form, value):
        if form.mark:
            return self.visit(form.fields[0].type, value)
        fields = [(field.name, self.visit(field.type, value.get(field.name))) for field in form.fields if field.type not in LEAVES]
        there = [(name, span) for name, span in fields if span and span[1]]
        for (name, span), (other, after) in zip(there, there[1:]):
            self.swapped[form.name, name, other] += after[0] < span[0]
        span = value["span"] if "span" in value else self.range_of(form, value, dict(fields))
        if span:
            self.ranges.add(tuple(span))
        return span

    def range_of(self, form, value, spans):
        parts = [spans.get(part) or value.get(part) for part in PARTS.get(form.name, ())]
        parts = [part for part in parts if part]
        return [parts[0][0], parts[-1][1]] if parts else None


def main():
    wrong, ranges, swapped = [], 0, collections.Counter()
    for file in sys.argv[1:]:
        for url, choice in json.loads(Path(file).read_bytes())["modules"]:
            module = choice.get("Esm")
            if not module:
                continue
            tree = Tree(module["source"]["program"])
            swapped += tree.swapped
            declared = {tuple(decl["range"]) for symbol in module["symbols"] for decl in symbol.get("decls", []) if decl.get("range")}
            ranges += len(declared)
            wrong += [f"{url}: no node has the range {span}" for span in sorted(declared - tree.ranges) if span[1] > 1]
    for line in wrong:
        print(line)
    for (form, first, second), count in sorted(swapped.items()):
        if count:
            print(f"{form}: {second} stands before {first}, {count} times")
    print(f"{ranges} ranges of declarations, {len(wrong)} of no node")
    return bool(wrong)


if __name__ == "__main__":
    sys.exit(main() if sys.argv[1:] else __doc__)
