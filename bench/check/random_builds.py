"""Random workspaces through `fast-check build`, against the answers that `build_worlds` puts together by rules of its own.

Each has packages of some modules, which import and export names of each other, of modules that are lacking, of JSON and of JavaScript, with public
variables, functions, classes and interfaces, and with faults. What the program answers has to be what the rules give, byte for byte: by all demands that
follow, or where who asks first decides what is found, by what the part `worlds` of fast_check_vectors finds, if that is what some account of demands gives
(`packages`). A workspace that differs from both is written to a file. One that needs the finder
is not judged where that is not built: the status is 2 then.

Usage: python3 -m bench random_builds [COUNT [SEED [PROGRAM [FINDER]]]]     both have to be built first: ./fast-check build examples/build_hello.json, and
                                                                    `rt run` in crates/fast_check_vectors
       python3 -m bench random_builds write FOLDER COUNT SEED       workspaces NAME.json and what must come, NAME.json.stdout
"""
import json
import os
import random
import subprocess
import sys
import tempfile

from bench.check import packages as finders
from bench.check.program_path import program_path
from bench.oracle.build_worlds import JsonModule, Module, World
from bench.oracle.items import ONE, THROW, func, part_of, unknown
from bench.oracle.module_trees import (
    default_import, default_value, export, export_all, import_, interface, named_export, named_import, property_signature, star_export, star_import,
)
from bench.oracle.package_worlds import with_ranges
from bench.oracle.programs import TOP, built, fast_check
from bench.oracle.trees import (
    array, class_method, class_stmt, constructor, declarator, default, exported, fn_stmt, hash_prop, lit, name, named, object_, pair, param_prop, prop, ref,
    returned, unexported, var_stmt,
)

NAMES = ["a", "b", "c", "d", "C", "D", "I", "J"]


class Writer:
    """Makes a random workspace."""

    def __init__(self, seed):
        self.random = random.Random(seed)
        self.words = [f"{package}/{module}.ts" for package in "pqr"[:self.random.randint(1, 3)] for module in "mnab"[:self.random.randint(1, 4)]]
        self.strays = {"./none": None, "./j.js": "p/j.js", "./d.json": "p/d.json", "./lost": "p/lost.ts", "./bare": "p/bare.ts"}

    def chance(self, part):
        return self.random.random() < part

    def one(self, *choices):
        return self.random.choice(choices)

    def type(self):
        kind = self.random.random()
        if kind < 0.4:
            return self.one("string", "number", "any")
        return named(self.one(*NAMES)) if kind < 0.95 else part_of(self.one(*NAMES), self.one("x", "s"))

    def maybe_type(self, part):
        return self.type() if self.chance(part) else None

    def value(self):
        return self.one(ONE, lit('"t"'), ref(self.one(*NAMES)), object_(pair("k", ref(self.one(*NAMES)))), array(ONE), unknown() if self.chance(0.3) else ONE)

    def param(self):
        made = name(self.one("x", "y"), self.maybe_type(0.9))
        return default(made, self.value()) if self.chance(0.2) else made

    def params(self):
        return [self.param() for _ in range(self.random.randint(0, 2))]

    def members(self):
        made = []
        for each in self.random.sample(["s", "t", "u", "v"], self.random.randint(0, 3)):
            is_static = each == "s"
            access = None if is_static else self.one(None, None, "private", "protected")
            made.append(self.one(
                lambda: prop(each, self.maybe_type(0.8), self.value(), access, static=is_static),
                lambda: class_method(each, self.params(), *[returned(ONE)] * self.chance(0.7), ret=self.maybe_type(0.8), access=access, static=is_static))())
        if self.chance(0.3):
            made.append(constructor([param_prop(self.param(), self.one("private", "public")) for _ in range(self.random.randint(0, 2))]))
        return made + [hash_prop("h", value=unknown())] * self.chance(0.3)

    def declared(self, each):
        if each in "IJ":
            return interface(each, property_signature("k", self.type()))
        if each in "CD":
            return class_stmt(each, *self.members(), super_class=ref(self.one("C", "D", "a")) if self.chance(0.2) else None)
        return self.one(
            lambda: var_stmt(self.one("Const", "Let"), declarator(name(each, self.maybe_type(0.5)), self.value() if self.chance(0.9) else None)),
            lambda: fn_stmt(each, self.params(), *self.one([], [returned(ONE)], [THROW]), ret=self.maybe_type(0.8)))()

    def declaration(self, each):
        if each in "abcd" and self.chance(0.1):
            return [func(each, self.params(), ret="string", body=False), func(each, [name("x")], returned(ONE))]
        return [exported(self.declared(each)) if self.chance(0.65) else unexported(self.declared(each))]

    def text(self, word):
        """A text of a source, which leads to a module of the same package, to another package, or astray."""
        kind = self.random.random()
        package, others = word.split("/")[0], [each for each in self.words if each != word]
        same = [each for each in others if each.startswith(package + "/")]
        if kind < 0.08:
            return self.one(*self.strays)
        if others and (kind < 0.3 or not same):
            other = self.one(*others)
            return f"@{other[:-3]}"
        return f"./{self.one(*same).split('/')[1][:-3]}" if same else "./none"

    def import_or_export(self, word, free):
        text = self.text(word)
        take = lambda: [free.pop() for _ in range(min(len(free), self.random.randint(1, 2)))]
        exported_names = lambda: [named_export(each) if self.chance(0.7) else named_export(each, f"{each}{each}") for each in self.random.sample(NAMES, 2)]
        kinds = [lambda: export(*exported_names(), src=text), lambda: export_all(text), lambda: export(star_export(f"n{len(free)}"), src=text)]
        if free:
            kinds += [lambda: import_(text, *[named_import(self.one(*NAMES), each) for each in take()]), lambda: import_(text, *map(named_import, take())),
                      lambda: import_(text, star_import(free.pop())), lambda: import_(text, default_import(free.pop()))]
        return self.one(*kinds)()

    def module(self, word):
        free = self.random.sample(NAMES, len(NAMES))
        items = [self.import_or_export(word, free) for _ in range(self.random.randint(0, 3))]
        for _ in range(self.random.randint(1, 4)):
            items += self.declaration(free.pop()) if free else []
        if self.chance(0.2):
            items.append(export(self.one(*NAMES)))
        if self.chance(0.2):
            items.append(default_value(self.value()))
        package = word.split("/")[0]
        resolved = {text: to for text, to in self.strays.items() if to}
        resolved.update({f"@{each[:-3]}": each for each in self.words})
        resolved.update({f"./{each.split('/')[1][:-3]}": each for each in self.words if each.startswith(package + "/")})
        answers = [[self.one(*NAMES), self.one(*self.words)] for _ in range(self.random.randint(0, 2))]
        return Module(word, *items, answers=answers, resolved=resolved, media_type=self.one(*["TypeScript"] * 9, "Dts"))

    def world(self):
        packages = sorted({word.split("/")[0] for word in self.words})
        exports = {package: [f"./{word.split('/')[1]}" for word in self.words if word.startswith(package + "/") and self.chance(0.5)] or ["./m.ts"]
                   for package in packages}
        for texts in exports.values():
            if self.chance(0.05):
                texts.append(self.one("./lacking.ts", "./j.js", "./d.json", "./bare.ts", "http://["))
        only = {"p/j.js": "JavaScript", "p/bare.ts": {"Js": {"media_type": "TypeScript"}}}
        pending = [self.one(*packages) for _ in range(self.random.randint(1, 2))]
        return World(exports, *map(self.module, self.words), JsonModule("p/d.json"), pending=pending, first=self.chance(0.3), only=only)


def told(answers):
    """The line and the status of answers."""
    if answers is None:
        return "", 2
    line = json.dumps(answers, sort_keys=True, separators=(",", ":"), ensure_ascii=False) + "\n"
    return line, int(any("Err" in answer for _, answer in answers))


def told_by(finder, world):
    """The line and the status of what the finder finds, or None where no account gives that."""
    asked = with_ranges(dict(world.rules(), name="world"))
    lines = finders.run([asked], finder).splitlines()
    if finders.judged(asked, lines)[0]:
        return None
    return told(world.answers_to(finders.read_shown(lines[1:])[0], PAGES))


# the page of a diagnostic, as the program's definition of it says
with open(os.path.join(TOP, "crates/fast_check_tables_diagnostics/specs/Report.antt")) as file:
    PAGES = file.read().split('docs_url = Some (codes "')[1].split('"')[0]


def write(folder, count, seed):
    os.makedirs(folder, exist_ok=True)
    for number in range(seed, seed + count):
        world = Writer(number).world()
        path = os.path.join(folder, f"{number}.json")
        with open(path, "w") as file, open(path + ".stdout", "w") as out:
            json.dump(world.request(), file, ensure_ascii=False)
            out.write(told(world.answers(PAGES))[0])


def main(words):
    if words[:1] == ["write"]:
        write(words[1], int(words[2]), int(words[3]))
        return
    count, seed = int((words + ["1000"])[0]), int((words + ["1", "1"])[1])
    program, finder = (words + ["", "", "", ""])[2:4]
    program, finder = program_path(program or fast_check()), os.path.abspath(finder or built("fast_check_vectors"))
    differ, by_others, not_judged, statuses = 0, 0, 0, {0: 0, 1: 0, 2: 0}
    for number in range(seed, seed + count):
        world = Writer(number).world()
        expected = told(world.answers(PAGES))
        with tempfile.NamedTemporaryFile("w", suffix=".json") as file:
            json.dump(world.request(), file, ensure_ascii=False)
            file.flush()
            done = subprocess.run([program, "build", file.name], capture_output=True, text=True)
        given = done.stdout, done.returncode
        statuses[expected[1]] += 1
        if given == expected:
            continue
        by_others += 1
        if not os.path.exists(finder):
            not_judged += 1
        elif given != told_by(finder, world):
            differ += 1
            path = os.path.join(tempfile.gettempdir(), f"build_{number}.json")
            with open(path, "w") as file:
                json.dump({"request": world.request(), "expected": expected[0], "given": done.stdout or done.stderr}, file, ensure_ascii=False)
            print(f"{number} differs: {path}")
    print(f"{count} workspaces, {by_others} not by all demands, {differ} differ, {not_judged} not judged; of status 0, 1 and 2: {list(statuses.values())}")
    sys.exit(1 if differ else 2 if not_judged else 0)


if __name__ == "__main__":
    main(sys.argv[1:])
