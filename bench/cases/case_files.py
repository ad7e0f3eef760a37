"""Cases that are TypeScript files: NAME.ts, by the ending of its media type, and beside it NAME.expected with what has to come out.

A folder of cases has a file `cases`, with titles and below each the names of its cases in order. NAME.expected has the skeleton as TypeScript, or a line `error: FAULT`
for each fault as `case` says it. Lines before that begin with `//`, and say what is not usual:

    // private: 0 2.1           items that are not public, by their places: the first one, and the second one of the namespace that is the third
    // hidden: 0.1              specifiers and declarators that are not: the second one of the first item
    // media-type: Unknown      one that no ending of a file has
    // by: 0 value              the range by which an item is public, as `ranges_of_item` says
    // implementations: 1 0.2   items, and members of classes, that are implementations behind overloads
    // own-ranges, first, script, unscoped
                                public by their own ranges; the first fault alone is asked for; the file is a script; names of variables have no scope
    // specifier: URL, resolved: TEXT URL, graph: JSON
    // object: NAME EXPORT.., exported object: NAME EXPORT.., tables: NAME
                                what the tables know of an object, and tables of `TABLES`
    // source: WORDS, sources: none, levels: NUMBER
                                the sources of the answer, and how deep the request is
    // answers: the same        of the second of two modules: whether both answers are the same under a renaming, or `others`
    // stays: 0 2, stays: none  the items that the skeleton has as they are, in place of its text
    // tree: PATH VALUE         what the items have there in place of what is read
    // comments: 1 20!          the places of tokens that documentation stands before and behind; where a `!` stands, that before it goes
    // leading comments: 1 20!  the same of what stands before them alone
"""
import json
import os

from bench.cases import front_end
from bench.cases.case import Case
from bench.cases.known_tables import TABLES, known
from bench.cases.runs import DATA
from bench.oracle.trees import MODULE

HERE = os.path.dirname(os.path.abspath(__file__))


def listed(folder):
    """The titles of a folder, each with the names of its cases."""
    found = []
    with open(os.path.join(HERE, folder, "cases")) as lines:
        for line in lines.read().splitlines():
            if line.startswith("# "):
                found.append((line[2:], []))
            elif line:
                found[-1][1].append(line)
    return found


def text_of(path):
    """The text of a file, without the end of its last line."""
    with open(path, encoding="utf-8") as file:
        return file.read().removesuffix("\n")


def media_type(name):
    """The media type of a file by its ending."""
    return next(kind for kind, ending in sorted(front_end.ENDINGS.items(), key=lambda each: -len(each[1])) if name.endswith(ending))


class Sources:
    """The trees of TypeScript texts. All are read at once, where the first one is asked for; what the compiler does not read, or all where there is no Node, is
    taken as it is stored, if its text is still the same."""

    def __init__(self):
        self.asked, self.programs, self.version, self.stored = [], {}, None, 0

    def ask(self, name, file, text):
        """Asks for the program of a text that a stored file of this name has."""
        self.asked.append((name, file, text))

    def program(self, file, text):
        if not self.programs:
            self.read()
        return self.programs[file, text]

    def read(self):
        made, self.version = front_end.read([["m" + front_end.ENDINGS[media_type(file)], text] for _, file, text in self.asked])
        for (name, file, text), program in zip(self.asked, made):
            if program is None:
                program, self.stored = stored_program(name, text), self.stored + 1
            self.programs[file, text] = program

    def told(self):
        """How many texts were read, and by what."""
        count = len(self.asked) - self.stored
        return f"{count} texts read by TypeScript {self.version}, {self.stored} as stored" if self.version else f"all {self.stored} texts as stored: there is no Node"


def stored_program(name, text):
    """The program of this text in a stored file of runs."""
    path = os.path.join(DATA, name)
    if os.path.exists(path):
        with open(path) as file:
            for source in sources_of([json.loads(line) for line in file]):
                if source["text"] == text:
                    return source["program"]
    raise SystemExit(f"{name}: the compiler does not read this text, and none is stored: take a newer one (tools/typescript/newest.sh)\n{text}")


def sources_of(value):
    """All sources in a request."""
    if isinstance(value, dict):
        if "program" in value and "text" in value:
            yield value
        for inside in value.values():
            yield from sources_of(inside)
    elif isinstance(value, list):
        for inside in value:
            yield from sources_of(inside)


def as_module(program):
    """A script as a module."""
    (kind, made), = program.items()
    return program if kind == "Module" else {"Module": dict(made, body=[{"Stmt": stmt} for stmt in made["body"]])}


SOURCES = Sources()


# ---- what stands beside a source


def expected(text):
    """What NAME.expected says: pairs of words that are not usual, and the skeleton or the faults."""
    heads, faults, shown = [], [], ""
    for line in text.split("\n"):
        if line.startswith("// ") and not faults and not shown:
            word, _, value = line[3:].partition(": ")
            heads.append((word, value))
        elif line.startswith("error: "):
            faults.append(line[7:])
        else:
            shown += line
    return heads, faults or shown


def places(value):
    """Places such as `0 2.1`, each as a tuple."""
    return [tuple(map(int, place.split("."))) for place in value.split()]


def by_item(value):
    """Of places of two numbers the second ones, by the first."""
    found = {}
    for item, inside in places(value):
        found[item] = (*found.get(item, ()), inside)
    return found


def apart(value, case, top, inside):
    """Notes places of items and those inside of items, apart."""
    setattr(case, top, tuple(place for place, *more in places(value) if not more))
    case.more[inside] = [place for place in places(value) if len(place) > 1]


def by_range(value, case):
    item, by = value.split()
    case.more.setdefault("by", {})[int(item)] = int(by) if by.isdigit() else by


def resolved(value, case):
    text, url = value.rsplit(" ", 1)
    case.more.setdefault("resolved", {})[text] = url


def known_object(value, case, is_exported):
    name, *exports = value.split()
    case.more.setdefault("objects", []).append((name, MODULE, tuple(exports), is_exported))


def other_tree(value, case):
    path, _, json_value = value.partition(" ")
    case.more.setdefault("tree", []).append((path.split("."), json.loads(json_value)))


def documented(value, case, are_leading=False):
    """Places of documentation, each with whether it stays."""
    case.more.update(comments=[(int(place.rstrip("!")), not place.endswith("!")) for place in value.split()], are_leading=are_leading)


HEADS = {
    "private": lambda value, case: apart(value, case, "private", "private_inside"),
    "implementations": lambda value, case: apart(value, case, "implementations", "members"),
    "hidden": lambda value, case: case.more.update(hidden=by_item(value)),
    "by": by_range,
    "own-ranges": lambda value, case: setattr(case, "own_ranges", True),
    "media-type": lambda value, case: case.more.update(media_type=value),
    "first": lambda value, case: case.more.update(first=True),
    "unscoped": lambda value, case: case.more.update(is_unscoped=True),
    "script": lambda value, case: case.more.update(is_script=True),
    "specifier": lambda value, case: case.more.update(specifier=value),
    "resolved": resolved,
    "graph": lambda value, case: case.more.update(graph=json.loads(value)),
    "object": lambda value, case: known_object(value, case, False),
    "exported object": lambda value, case: known_object(value, case, True),
    "tables": lambda value, case: case.more.update(TABLES[value]),
    "source": lambda value, case: case.more.setdefault("sources", []).append(value),
    "sources": lambda value, case: case.more.update(sources=[]),
    "levels": lambda value, case: case.more.update(levels=int(value)),
    "answers": lambda value, case: case.more.update(answers=value),
    "stays": lambda value, case: case.more.update(stays=[] if value == "none" else [place for place, in places(value)]),
    "tree": other_tree,
    "comments": documented,
    "leading comments": lambda value, case: documented(value, case, True),
}


def case_of(name, text):
    """A case by what stands beside its source."""
    heads, shown = expected(text)
    case = Case(name, None, shown)
    for word, value in heads:
        HEADS[word](value, case)
    case.more.update(known(*case.more.pop("objects")) if "objects" in case.more else {})
    return case


def with_changes(items, changes):
    """Items in which values at paths are others."""
    for path, value in changes:
        node = items
        for step in path[:-1]:
            node = node[int(step) if step.isdigit() else step]
        node[path[-1]] = value
    return items


def without_scopes(items):
    """Items in which names of variables have no scope."""
    for item in items:
        decl = item["ModuleDecl"]["ExportDecl"]["decl"] if "ModuleDecl" in item else item["Stmt"]["Decl"]
        for declarator in decl["Var"]["decls"]:
            declarator["name"]["Ident"]["id"]["ctxt"] = 0
    return items


class Folder:
    """The cases of a folder, in order below their titles. Those that are no files are given by their names."""

    def __init__(self, name, others):
        self.titles, self.others, self.sources = listed(name), others, {}
        files = os.listdir(os.path.join(HERE, name))
        for file in files:
            if file.endswith(tuple(front_end.ENDINGS.values())):
                case = file.removesuffix(front_end.ENDINGS[media_type(file)])
                self.sources[case] = file, text_of(os.path.join(HERE, name, file))
                SOURCES.ask(case.split(".")[0] + ".json", *self.sources[case])
        self.expected = {file[:-9]: text_of(os.path.join(HERE, name, file)) for file in files if file.endswith(".expected")}
        for case in sorted({case.split(".")[0] for case in self.sources} - {case for _, cases in self.titles for case in cases}):
            raise SystemExit(f"{name}/{case} is not in the list {name}/cases")

    def cases(self):
        """Each title with its cases."""
        for title, names in self.titles:
            yield title, [self.case(name) for name in names]

    def case(self, name):
        if name not in self.sources:
            if name not in self.others:
                raise SystemExit(f"{name} is in a list of cases, and there is no such file")
            return self.others[name]
        file, text = self.sources[name]
        case = case_of(name, self.expected[name])
        program = SOURCES.program(file, text)
        is_script = case.more.get("is_script")
        case.program = (program if is_script else as_module(program))["Script" if is_script else "Module"]
        items = [{"Stmt": stmt} for stmt in case.program["body"]] if is_script else case.program["body"]
        items = without_scopes(items) if case.more.get("is_unscoped") else items
        case.items, case.text = with_changes(items, case.more.pop("tree", ())), text
        if media_type(file) != "TypeScript":
            case.more["media_type"] = media_type(file)
        return case
