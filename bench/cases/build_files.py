"""Builds that are text files: packages of TypeScript modules, each with what its answer has to show.

A file begins with lines as `package_worlds` has them (`package`, `unlisted`, `listed`, `member`, `pending`, `alias`, `only`), with `away WORD` for a module that the graph lacks, and
with `first` where the first fault alone is asked for. Lines for what no front end makes:

    provided q p/                    an entry of the provider: these, in order, are all
    depends p/mod.ts a C.prototype.p a symbol of a module refers to this type, or to this value where it is one name
    symbol p/mod.ts C {..}           members of a symbol that are others
    alias-of p/mod.ts a b            a symbol that is an alias of this name
    left-out REGEX                   what all demands give and one account does not, of what stands for it as words

Then stand the modules and the answers:

    # p/mod.ts ./b.ts @q/q=q/mod.ts    a module, with the texts that are resolved in it, and what they lead to; the lines below are its text. A JSON module has none
    # answer p/mod.ts                  the skeleton of a module as TypeScript, or a line `error: FAULT` for each fault, as `odd_builds` says it
"""
import functools
import json
import os
import re
from urllib.parse import urljoin

from bench.cases.case_files import HERE, SOURCES, as_module, listed, media_type, text_of
from bench.oracle.build_worlds import JsonModule, Module, World
from bench.oracle.package_worlds import nv_of, url_of
from bench.oracle.trees import MODULE


class BuildFile:
    """A build, whose modules are read where the world is asked for."""

    request = None

    def __init__(self, name, folder="builds"):
        self.stored, self.modules, self.expected = f"{name}.json" if folder == "builds" else "cached_builds", [], []
        self.packages, self.unlisted, self.listed, self.aliases, self.only = {}, {}, {}, {}, {}
        self.members, self.pending, self.away, self.first = [], [], [], False
        self.provided, self.deps, self.symbols, self.left_out = [], {}, [], []
        head, *sections = ("\n" + text_of(os.path.join(HERE, folder, f"{name}.txt"))).split("\n# ")
        for line in head.split("\n"):
            if line:
                self.line(*line.split())
        for section in sections:
            title, _, text = section.partition("\n")
            self.section(title.split(" "), text.rstrip("\n"))

    def line(self, command, *words):
        if command == "first":
            self.first = True
        elif command in ("pending", "away"):
            getattr(self, command).extend(words)
        elif command in ("package", "unlisted"):
            (self.packages if command == "package" else self.unlisted)[words[0]] = words[1:]
        elif command == "listed":
            self.listed[words[0]] = url_of(words[1])
        elif command == "provided":
            self.provided.append([nv_of(words[0]), url_of(words[1])])
        elif command == "depends":
            first, *path = words[2].split(".")
            dep = [{"QualifiedId": [[first, MODULE], path]}, "Type_"] if path else [{"Id": [first, MODULE]}, "Value"]
            self.deps.setdefault(words[0], {}).setdefault(words[1], []).append(dep)
        elif command in ("symbol", "alias-of"):
            self.symbols.append((url_of(words[0]), words[1], json.loads(words[2]) if command == "symbol" else words[2]))
        elif command == "left-out":
            self.left_out.append(" ".join(words))
        elif command == "member":
            self.members.append([words[0], None if words[1] == "-" else words[1], words[2], words[3:]])
        elif command == "alias":
            self.aliases[words[0]] = words[1]
        else:
            self.only[words[0]] = words[1]

    def section(self, words, text):
        if words[0] == "answer":
            faults = [line.removeprefix("error: ") for line in text.split("\n") if line.startswith("error: ")]
            self.expected.append((words[1], faults or text))
            return
        resolved = dict(word.split("=", 1) if "=" in word else (word, urljoin(url_of(words[0]), word)) for word in words[1:])
        self.modules.append((words[0], text, resolved))
        if not words[0].endswith(".json"):
            SOURCES.ask(self.stored, words[0].split("/")[-1], text)

    def module(self, word, text, resolved):
        if word.endswith(".json"):
            return JsonModule(word)
        file = word.split("/")[-1]
        items = as_module(SOURCES.program(file, text))["Module"]["body"]
        return Module(word, read=(items, text), media_type=media_type(file), resolved=resolved, deps=self.deps.get(word))

    @property
    def world(self):
        """A world of its own each time."""
        node = lambda kind: kind if kind in ("JavaScript", "External") else {"Js": {"media_type": kind}} if kind == "TypeScript" else {kind: {}}
        only = {word: node(kind) for word, kind in self.only.items()}
        world = World(self.packages, *[self.module(*module) for module in self.modules], pending=self.pending, first=self.first, only=only,
                      unlisted=self.unlisted, members=self.members, aliases=self.aliases, away=self.away, listed=self.listed)
        world.parts["provider"]["packages"] = self.provided or world.parts["provider"]["packages"]
        for url, name, change in self.symbols:
            symbol, = (each for module in world.modules if module.url == url for each in module.tables["symbols"] if each.get("maybe_name") == name)
            if isinstance(change, dict):
                symbol.update(change)
            else:
                symbol["decls"][0]["kind"] = {"Target": [change, MODULE]}
        return world

    def without(self, it):
        """Whether something that all demands give is left out."""
        return any(re.search(pattern, " ".join(map(str, it))) for pattern in self.left_out)


def titles():
    """The titles of the builds, each with their names."""
    return listed("builds")


@functools.cache
def files(folder="builds"):
    """The builds of a folder that are files, by their names."""
    return {file[:-4]: BuildFile(file[:-4], folder) for file in os.listdir(os.path.join(HERE, folder)) if file.endswith(".txt")}
