"""Random pairs of modules through `fast-check pair`: a random module, and the same after random edits of what is hidden, with other scope numbers.

Each node of the first module has a number, which stays with it through the edits (`hidden_edits`). Where it stands in the one text and in the other says what
the renaming takes its start and its end to. Both answers have to be the same under it (`renamings`). A pair that no single renaming relates, since two
positions fall together in one text alone, is made anew. Comments stand before and behind some items and members of both. A pair that differs is written to
a file.

Usage: python3 -m bench random_pairs [COUNT [SEED [PROGRAM]]]       the program has to be built first: ./fast-check pair examples/pair.json
"""
import copy
import json
import os
import subprocess
import sys
import tempfile

from bench.check.hidden_edits import Edits, new_nodes
from bench.check.program_path import program_path
from bench.check.random_modules import RESOLVED, SPECIFIER, Writer, members
from bench.oracle import programs
from bench.oracle.nodes import variant
from bench.oracle.renamings import Renaming
from bench.oracle.trees import FREE, lay_items, unshared

RANGES = ("span", "dot3_token", "spread")


def number(items):
    """Gives each node with a range a number."""
    found = 0

    def visit(node):
        nonlocal found
        if isinstance(node, dict):
            if any(field in node for field in RANGES):
                found += 1
                node["#"] = found
            node = node.values()
        elif not isinstance(node, list):
            return
        for each in node:
            visit(each)

    visit(items)


def numbered(tree):
    """The nodes with numbers, by these."""
    found = {}

    def visit(node):
        if isinstance(node, dict):
            if "#" in node:
                found[node["#"]] = node
            node = node.values()
        elif not isinstance(node, list):
            return
        for each in node:
            visit(each)

    visit(tree)
    return found


# ---- what is public


def node_of_decl(decl):
    """The node by whose range a declaration is public."""
    kind, node = variant(decl)
    return node[{"Class": "class", "Fn": "function"}[kind]] if kind in ("Class", "Fn") else node


def places(items):
    """The nodes by whose ranges something may be public."""
    for kind, node in members(items):
        if kind in ("ExportDecl", "ExportAll", "TsImportEquals", "ExportDefaultExpr", "ExportDefaultDecl", "Assign", "Import", "ExportNamed"):
            yield from [node] if "span" in node else []
            for each in node.get("specifiers", []):
                inner, specifier = variant(each)
                yield specifier["exported"] if inner == "Default" and "exported" in specifier else specifier
        elif kind == "Decl":
            yield from variant(node)[1].get("decls") or [node_of_decl(node)]
        elif kind == "decl" and isinstance(node, dict) and len(node) == 1:
            yield from variant(node)[1].get("decls", [])


def implementations(items):
    """The nodes by whose ranges something may be an implementation with overloads."""
    return [node for kind, node in members(items) if kind in ("ExportDecl", "Method", "Constructor", "ExportDefaultDecl") and "span" in node]


def documented(items):
    """The nodes before and behind which comments may stand: items, and members of classes."""
    found = []
    for kind, node in members(items):
        if kind in ("ExportDecl", "Import", "ExportNamed", "Method", "ClassProp", "Constructor", "StaticBlock") and "span" in node:
            found.append(node)
    return [node for node in found if "#" in node]


# ---- scope numbers


def rescoped(tree, scopes):
    """A tree with other scope numbers."""
    if isinstance(tree, dict):
        return {name: scopes[inside] if name == "ctxt" else rescoped(inside, scopes) for name, inside in tree.items()}
    return [rescoped(each, scopes) for each in tree] if isinstance(tree, list) else tree


class PairMaker:
    """Makes a pair of a seed, with the renaming that relates it."""

    def __init__(self, seed):
        self.writer = Writer(seed)
        self.random = self.writer.random
        numbers = self.random.sample(range(1, 60), 7)
        self.scopes = {0: 0, **dict(zip((1, 2, 3, 4, 5, 6, 7), numbers))}
        self.made = {}

    def pair(self):
        """A request, and a renaming of its first module to its second. None where no renaming relates them."""
        writer = self.writer
        first = unshared(writer.items(2, 6))
        number(first)
        part = writer.one(0.6, 0.9, 1.0)
        public = {node["#"] for node in places(first) if writer.chance(part)}
        impls = {node["#"] for node in implementations(first) if writer.chance(0.1)}
        second = copy.deepcopy(first)
        edits = Edits(writer, writer.one(0.1, 0.3, 0.6), impls)
        edits.items(second, writer.is_declaration_file)
        self.made = edits.made
        comments = {node["#"] for node in documented(first) if writer.chance(0.3)}
        tables = writer.tables()[0]
        (items, text), (others, other_text) = lay_items(first), lay_items(second)
        renaming = self.renaming(numbered(items), numbered(others))
        if renaming is None:
            return None
        a = self.module(items, text, comments, tables, FREE)
        b = self.module(rescoped(others, self.scopes), other_text, comments, self.rescoped_tables(tables), self.scopes[FREE])
        request = {"graph": {"modules": [], "resolutions": [[SPECIFIER, each, url] for each, url in RESOLVED.items()], "packages": []},
                   "a": a, "ranges_a": spans(items, public), "impls_a": spans(items, impls),
                   "b": b, "ranges_b": spans(others, public), "impls_b": spans(others, impls), "first": writer.chance(0.1)}
        return new_nodes(request), renaming

    def renaming(self, nodes, others):
        """What takes each node's place in the one text to that in the other, and each scope number to its own."""
        made = Renaming()
        for number in nodes.keys() & others.keys():
            for field in RANGES:
                range, other = nodes[number].get(field), others[number].get(field)
                if range is not None and other is not None and not (made.add("starts", range[0], other[0]) and made.add("ends", range[1], other[1])):
                    return None
        return made if all(made.add("scopes", scope, other) for scope, other in self.scopes.items()) else None

    def module(self, items, text, comments, tables, unresolved):
        """A module of these items, with comments before and behind the nodes of these numbers."""
        nodes = numbered(items)
        stand = sorted(nodes[each]["span"] for each in comments if each in nodes)
        leading, trailing = {}, {}
        for start, end in stand:
            comment = {"kind": "Block", "span": [start, end], "text": "* doc "}
            leading.setdefault(start, []).append(comment)
            trailing.setdefault(end, []).append(comment)
        source = {"media_type": "Dts" if self.writer.is_declaration_file else "TypeScript", "text": text,
                  "program": {"Module": {"span": [1, len(text.encode()) + 1], "body": items, "shebang": None}},
                  "comments": {"leading": sorted(map(list, leading.items())), "trailing": sorted(map(list, trailing.items()))},
                  "unresolved_context": unresolved}
        return {"specifier": SPECIFIER, "source": source, **tables}

    def rescoped_tables(self, tables):
        """The same symbols under other scope numbers; a private class may have one more."""
        ids = [[[text, self.scopes[scope]], symbol] for (text, scope), symbol in tables["swc_ids"]]
        symbols = list(tables["symbols"])
        if self.writer.chance(0.5):
            kind = {"Definition": {"is_class": True, "is_plain_class_decl": True}}
            ids.append([["H", self.scopes[2]], len(symbols)])
            symbols.append({"id": len(symbols), "parent_id": 0, "maybe_name": "H", "decls": [{"range": [1, 2], "kind": kind, "value": True}]})
        return {**tables, "symbols": symbols, "swc_ids": ids}


def spans(items, numbers):
    """Where the nodes of these numbers stand."""
    nodes = numbered(items)
    return [nodes[each]["span"] for each in sorted(numbers) if each in nodes]


def answers_of(program, request):
    with tempfile.NamedTemporaryFile("w", suffix=".json") as file:
        json.dump(request, file, ensure_ascii=False)
        file.flush()
        done = subprocess.run([program, "pair", file.name], capture_output=True, text=True)
    return json.loads(done.stdout) if done.returncode in (0, 1) else done.stderr


def main():
    count, seed = int((sys.argv + ["1000"])[1]), int((sys.argv + ["1", "1"])[2])
    program = program_path(sys.argv[3] if len(sys.argv) > 3 else programs.fast_check())
    made, differ, trees, unrelated, edits, at = 0, 0, 0, 0, {}, seed
    while made < count:
        maker = PairMaker(at)
        found, at = maker.pair(), at + 1
        if found is None:
            unrelated += 1
            continue
        made += 1
        for kind, times in maker.made.items():
            edits[kind] = edits.get(kind, 0) + times
        request, renaming = found
        answers = answers_of(program, request)
        trees += isinstance(answers, list) and all("Ok" in answer for answer in answers)
        if isinstance(answers, str) or not renaming.takes_answer(*answers):
            differ += 1
            path = os.path.join(tempfile.gettempdir(), f"pair_{at - 1}.json")
            with open(path, "w") as file:
                json.dump({"request": request, "renaming": renaming.pairs, "answers": answers}, file, ensure_ascii=False)
            print(f"{at - 1} differs: {path}")
    print(f"edits: {dict(sorted(edits.items()))}")
    print(f"{made} pairs, {trees} with two skeletons, {unrelated} of no renaming, {differ} differ")
    sys.exit(differ > 0)


if __name__ == "__main__":
    main()
