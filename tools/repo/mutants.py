#!/usr/bin/env python3
"""Tries edits that the prover has to refuse: those of mutants/CRATE.edits, each of which turns the meaning of a function, a definition or a rule.

usage: mutants.py [CRATE..]            without a name: each crate that has a file in mutants/
       mutants.py --changed [CRATE..]  of these the crates that mutants/TRIED does not have as they are
       mutants.py --untried            tries nothing, and names these
  --edit NAME       only the edit of this name (may be given several times); then nothing is noted
  --gate            the edits of crates/CRATE/must-fail too
  --jobs N          so many checks at once (1)
  --libraries DIR   the libraries are DIR/NAME.rlib; without it those in crates/NAME/out/rlib, which are built where they lack

A function is proved from its own body and the contracts of others. So edits of the bodies of different functions are tried in one check of these
functions: an edit is refused if its function is not proved for a reason of its own, and not because it calls another. A clause of a proof is
checked from its own text and the types of what it names. So edits of different rules of relations in specs/, with the proofs that match on
them, are tried in one check too: an edit is refused if a clause that names its rule, and no other rule that is edited, is wrong; and so with
fields of records, where the clause uses no tactic that looks for facts by itself. Every other edit, and each that was not refused so, is tried
alone, and judged as the kit's gate judges it; what is not refused then either is tried once more from nothing.
Where work was kept from check to check, the crate itself has to be proved over it at last.

Prints a line for each edit that is not plainly refused (`STANDING`: the crate is still proved; `BY NAME ALONE`: only a proof that names what the
edit took away fails; `BAD`: it does not apply or cannot be read), and one for each crate. The status is 0 where all were refused. Then
mutants/TRIED has a hash of the crate and its edits as they are.
"""
import argparse
import hashlib
import importlib.machinery
import importlib.util
import os
import queue
import re
import shutil
import sys
import tempfile
import time
from concurrent.futures import ThreadPoolExecutor
from dataclasses import dataclass, field
from pathlib import Path

sys.dont_write_bytecode = True
from edit_blocks import crates_with_edits, unpack

TOP = Path(__file__).resolve().parents[2]
TRIED = TOP / "mutants" / "TRIED"
# Where the edits of mutants/ are written as files, by the names of their crates, as the kit reads them.
SCRATCH = tempfile.TemporaryDirectory(prefix="mutants-")
REFUSED, BY_NAME, STANDING, BAD = "refused", "BY NAME ALONE", "STANDING", "BAD"
# Comments, strings, characters and lifetimes, words, and any other mark, as the kit reads a source file.
TOKEN = re.compile(r"//[^\n]*|/\*.*?\*/|b?\"(?:[^\"\\]|\\.)*\"|'(?:\\.[^']*|[^'\\])'|'\w+|\w+|\s+|.", re.S)
CLAUSE = re.compile(r"(?:^| )(?:requires|ensures)(?: \*)?(?: \w+)?$|(?:^| )ghost \w+ :$")
# The head of a declaration of specs/, one of its rules, and a name with what leads to it.
HEAD = re.compile(r"(\s*)(?:pub )?(data|record|abbrev|module|mutual|unfoldable)\b\s*([^\s:({]*)")
RULE = re.compile(r"(\s+)(?:pub )?([^\s:(){}]+) : ")
NAME = re.compile(r"[^\s(){}\[\],;]+")
ERROR = re.compile(r"(?:\./)?(proofs/\S+?):(\d+):\d+: error: `")
# Tactics that look for what they need by themselves, so that a clause may rest on a rule, or on a field, that it does not name.
LOOKS = {"data": re.compile(r"\b(search|grind)\b"), "record": re.compile(r"\b(search|grind|cc|omega)\b")}
# A proof that only cites another one which was refused.
CITES = re.compile(r"depends? on `|is not admitted|was not admitted")
# What a proof file says of a name that an edit took away.
BY_NAME_LINE = re.compile(r"(\./)?proofs/.*(has no field|is not in scope|has no `|was not admitted)")


def kit():
    """The module of the kit's command, by whose rules the gate judges an edit."""
    file = os.path.realpath(shutil.which("rt") or sys.exit("there is no rt on the PATH"))
    loader = importlib.machinery.SourceFileLoader("rt", file)
    made = importlib.util.module_from_spec(importlib.util.spec_from_loader("rt", loader))
    loader.exec_module(made)
    return made


RT = kit()


@dataclass(frozen=True)
class Function:
    """A function of a source file: its name as a check prints it, the cycle of calls that it is in, and where its body begins and ends."""

    name: str
    cycle: str
    begin: int
    end: int

    @property
    def proved_as(self):
        """What is proved at once with it."""
        return self.cycle or self.name

    @property
    def proofs(self):
        """A pattern for the folder of its proof."""
        own = rf"\+{self.cycle}" if self.cycle else re.escape(self.name.split("::", 1)[1].replace("::", "/"))
        return re.compile(rf"(?:\./)?proofs/(?:.*/)?{own}/")


@dataclass
class Edit:
    """An edit: its file, the texts that it makes, and, if it changes the body of one function alone, that function and the change; if one
    rule of a relation, its file, the relation and the rule."""

    path: Path
    texts: dict = field(default_factory=dict)
    bad: str = ""
    file: str = ""
    function: Function = None
    change: tuple = ()
    rule: tuple = ()


def after_brace(text, at):
    """Where the text goes on behind the block that opens at `at`."""
    depth = 0
    for mark in re.finditer(r"[{}]", text[at:]):
        depth += 1 if mark[0] == "{" else -1
        if depth == 0:
            return at + mark.end()
    return len(text)


def without_arguments(words):
    """The words outside of angle brackets, and all words as one."""
    depth, outside = 0, []
    for word in words:
        depth += {"<": 1, ">": -1}.get(word, 0)
        if depth == 0 and re.match(r"[A-Za-z_]", word) and word != "where":
            outside.append(word)
        if word == "where":
            break
    return outside, "".join(it for it in words if re.match(r"[A-Za-z_]", it))


def implemented(header):
    """The name that a check gives an `impl`, of the words of its header: the type, with the trait and its arguments behind it."""
    words = header[header.index("impl") + 1 :]
    if words[:1] == ["<"]:
        depth = 0
        for place, word in enumerate(words):
            depth += {"<": 1, ">": -1}.get(word, 0)
            if depth == 0:
                words = words[place + 1 :]
                break
    if "for" not in words:
        return (without_arguments(words)[0] or [""])[-1]
    place = words.index("for")
    return (without_arguments(words[place + 1 :])[0] or [""])[-1] + without_arguments(without_path(words[:place]))[1]


def without_path(words):
    """The words of a trait without the path before its name: `Display` of `fmt::Display`."""
    head = words[: words.index("<")] if "<" in words else words
    colons = [place for place, word in enumerate(head) if word == ":"]
    return words[colons[-1] + 1 :] if colons else words


def functions(text, module):
    """The functions of a file, which is the module `module`."""
    found, scopes, header, depth, at = [], [module], [], 0, 0
    while at < len(text):
        token = TOKEN.match(text, at)
        word, at = token[0], token.end()
        if word.isspace() or word.startswith(("//", "/*")):
            continue
        depth += {"(": 1, "[": 1, ")": -1, "]": -1}.get(word, 0)
        if word == "}":
            scopes, header = scopes[:-1], []
        elif word == ";" and depth == 0:
            header = []
        elif word != "{":
            header.append(word)
        elif CLAUSE.search(" ".join(header)):
            at = after_brace(text, at - 1)
            header.append("{}")
        elif "fn" in header and depth == 0:
            begin, at = at, after_brace(text, at - 1)
            cycle = re.search(r"\bcycle \( (\w+) \)", " ".join(header))
            name = "::".join([*filter(None, scopes), header[header.index("fn") + 1]])
            found.append(Function(name, cycle[1] if cycle else "", begin, at - 1))
            header = []
        elif "impl" in header:
            scopes, header = [*scopes, implemented(header)], []
        elif "trait" in header or "mod" in header:
            scopes, header = [*scopes, header[header.index("trait" if "trait" in header else "mod") + 1]], []
        else:
            at, header = after_brace(text, at - 1), []
    return found


def change_between(old, new):
    """Where two texts differ: begin and end in the old one, and what stands there in the new one."""
    begin = len(os.path.commonprefix([old, new]))
    end = len(os.path.commonprefix([old[begin:][::-1], new[begin:][::-1]]))
    return begin, len(old) - end, new[begin : len(new) - end]


def rule_at(lines, number):
    """Whether it is of a `data` or a `record`, the relation, and its rule or field, that a line of a file of specs/ belongs to; None if to none."""
    rule = None
    for line in reversed(lines[: number + 1]):
        head, begins = HEAD.match(line), RULE.match(line)
        if head and (rule is None or len(head[1]) < len(rule[1])):
            return (head[2], head[3], rule[2]) if head[2] in ("data", "record") and rule else None
        if rule is None and begins and not line.lstrip().startswith("--"):
            rule = begins
    return None


def brought_in(proof):
    """What the `use` lines of a proof file bring in: modules, by the names that they have there, and single names."""
    modules, names = {}, set()
    for path, inside, alias in re.findall(r"^use (\S+?)(?:\.\{([^}]*)\})?(?: as (\S+))?$", proof, re.M):
        if inside:
            names |= {it.split()[-1] for it in inside.split(",") if it.strip()}
        else:
            modules[alias or path.split(".")[-1]] = path.split(".")[-1]
    return modules, names


def names_rule(text, rule, scope):
    """Whether a text of a proof names a rule: bare, behind its relation, or behind the module of both that the file brings in. A field of a
    record is named wherever its word stands."""
    (modules, names), (module, kind, relation, own) = scope, rule
    for name in NAME.findall(text):
        parts = name.rstrip(".").split(".")
        if kind == "record":
            if own in parts:
                return True
        elif parts[-1] == own and (own in names if len(parts) == 1 else parts[-2] == relation or modules.get(parts[-2]) == module):
            return True
    return False


def rule_of(edit, crate):
    """The rule of a relation that an edit changes, with nothing else but what proofs say of this rule; None if it changes more."""
    rules = set()
    for file, new in edit.texts.items():
        old = Path(crate.folder, file).read_text()
        begin, end, _ = change_between(old, new)
        lines, first, last = old.split("\n"), old.count("\n", 0, begin), old.count("\n", 0, max(begin, end - 1))
        if file.startswith("specs/"):
            rules |= {it and (Path(file).stem, *it) for it in (rule_at(lines, first), rule_at(lines, last))}
        elif not file.startswith("proofs/"):
            return None
    if len(rules) != 1 or None in rules:
        return None
    rule = rules.pop()
    for file, new in edit.texts.items():
        before, after = Path(crate.folder, file).read_text().split("\n"), new.split("\n")
        changed = [old for old, now in zip(before, after) if old != now]
        if file.startswith("proofs/") and (len(before) != len(after) or not all(names_rule(it, rule, brought_in(new)) for it in changed)):
            return None
    return rule


def clause_at(lines, number):
    """The text of the clause of a proof that a line belongs to; in one that is a record, of its head and the field."""
    depth = lambda line: len(line) - len(line.lstrip())
    begin = number
    while begin and not (re.search(r"(?:^|\s)=(?:\s|$)", lines[begin]) and is_clause(lines, begin)):
        begin -= 1
    end = begin + 1
    while end < len(lines) and (not lines[end].strip() or depth(lines[end]) > depth(lines[begin])):
        end += 1
    if lines[begin].rstrip().endswith("= record {"):
        fields = [it for it in range(begin + 1, number + 1) if depth(lines[it]) == depth(lines[begin]) + 2]
        after = [it for it in range(number + 1, end) if depth(lines[it]) == depth(lines[begin]) + 2]
        if fields:
            return "\n".join([lines[begin], *lines[fields[-1] : after[0] if after else end]])
    return "\n".join(lines[begin:end])


def is_clause(lines, number):
    """Whether a clause of a declaration begins at a line: the declaration's type stands above it at the same depth."""
    depth, name = re.match(r"(\s*)(?:pub )?(\S+)", lines[number]).groups()
    return any(re.match(rf"{depth}(?:(?:abbrev|pub) )*{re.escape(name)} :", line) for line in reversed(lines[:number]))


def module_of(file):
    """The modules that a file of src/ is, below the crate."""
    return [it for it in Path(file).with_suffix("").parts if it not in ("src", "lib", "main", "mod")]


def functions_of(crate):
    """The names of all functions of a crate, as the flag `--only` takes them."""
    files = sorted(Path(crate.folder, "src").rglob("*.rt"))
    return [it.name for file in files for it in functions(file.read_text(), "::".join(module_of(file.relative_to(crate.folder))))]


def read_edit(path, crate):
    """An edit of a crate, with the function whose body alone it changes."""
    edit = Edit(path)
    edit.texts, edit.bad = RT.read_edit(str(path), crate.folder)
    if edit.bad:
        return edit
    edit.rule = rule_of(edit, crate)
    if len(edit.texts) != 1:
        return edit
    edit.file, new = next(iter(edit.texts.items()))
    if not edit.file.startswith("src/"):
        return edit
    old = Path(crate.folder, edit.file).read_text()
    edit.change = change_between(old, new)
    begin, end, _ = edit.change
    inside = [it for it in functions(old, "::".join([crate.name, *module_of(edit.file)])) if it.begin <= begin and end <= it.end]
    edit.function = inside[0] if len(inside) == 1 else None
    return edit


def grouped(edits):
    """The edits in groups that change the body of each function, and of each cycle of calls, once at most."""
    groups = []
    for edit in edits:
        group = next((it for it in groups if all(edit.function.proved_as != other.function.proved_as for other in it)), None)
        if group is None:
            groups.append(group := [])
        group.append(edit)
    return groups


def combined(crate, group):
    """The texts that all edits of a group make at once."""
    texts = {}
    for edit in sorted(group, key=lambda it: it.change, reverse=True):
        begin, end, new = edit.change
        old = texts.get(edit.file) or Path(crate.folder, edit.file).read_text()
        texts[edit.file] = old[:begin] + new + old[end:]
    return texts


def only(group):
    """The flags of a check of the functions of a group alone."""
    names = sorted({it.function.name.split("::", 1)[1] for it in group})
    return ["--jobs", "1", *[word for name in names for word in ("--only", name)]]


def verdict_of(edit, lines):
    """Whether a check of many edits refuses this one: `refused`, by name alone, or None where its lines do not say."""
    own = re.compile(rf"fn {re.escape(edit.function.name)}(?:::\S+)?: (?:not proved|no proof)(.*)")
    said = [it for it in map(own.match, lines) if it]
    if not said:
        return None
    if any("did not prove" in it[1] for it in said):
        return REFUSED
    errors = [it for it in lines if edit.function.proofs.match(it) and ": error" in it]
    if any(not BY_NAME_LINE.match(it) for it in errors):
        return REFUSED
    return BY_NAME if errors else None


class Crate:
    """A crate whose edits are tried, with the work that its checks keep, a folder for each of `jobs` checks at once. `is_proved` says that
    the crate itself was proved as it stands: then a few checks are made each from nothing, and it is not proved again."""

    def __init__(self, crate, jobs, is_proved, note=print):
        self.crate, self.note, self.found, self.is_whole = crate, note, {}, False
        self.is_proved, self.keeps = is_proved, True
        self.rooms = queue.Queue()
        for job in range(jobs):
            room = f"{crate.folder}/out/edits/{job}"
            os.makedirs(room, exist_ok=True)
            self.rooms.put(room)

    def checked(self, texts, flags):
        """What a check of the crate with these texts says."""
        room = self.rooms.get()
        try:
            return RT.checked(self.crate, texts, flags, room if self.keeps else None)
        finally:
            self.rooms.put(room)

    def settle(self, edit, verdict, why=""):
        self.found[edit.path] = verdict
        if verdict != REFUSED:
            self.note(f"{verdict} {label(edit.path)}{': ' + why if why else ''}")

    def try_group(self, group):
        """Tries edits at once. Where they reach no verdict, each half of them; what is not refused, alone."""
        texts = combined(self.crate, group)
        ran = self.checked(texts, only(group))
        lines = ran.stdout.rstrip("\n").split("\n")
        reached = ran.returncode in (0, 1) and lines[-1].startswith("only=") and not any(RT.unread(it, texts) for it in lines)
        if not reached and len(group) > 1:
            self.try_group(group[: len(group) // 2])
            self.try_group(group[len(group) // 2 :])
            return
        for edit in group:
            verdict = verdict_of(edit, lines) if reached else None
            if verdict:
                self.settle(edit, verdict)
            else:
                self.try_alone(edit)

    def try_rules(self, edits):
        """Tries edits of different rules of relations, or of different fields of records, at once, again and again, as long as each check refuses some of them; what is left, alone."""
        while len(edits) > 1:
            group, text = [], ""
            for edit in edits:
                more = f"{text}{edit.path.read_text().rstrip()}\n"
                if edit.rule not in [it.rule for it in group] and not RT.edited(more, self.crate.folder)[1]:
                    group, text = [*group, edit], more
            refused = self.refused_rules(group, RT.edited(text, self.crate.folder)[0])
            if not refused:
                break
            for edit in refused:
                self.settle(edit, REFUSED)
            edits = [it for it in edits if it not in refused]
            self.note(f"{self.crate.name}: {len(refused)} of {len(group)} refused at once, {len(edits)} left")
        for edit in edits:
            self.try_alone(edit)

    def refused_rules(self, group, texts):
        """The edits of a group that a check of all of them refuses: a clause that names the edit's rule, and no other of the group, is wrong."""
        self.is_whole = True
        ran = self.checked(texts, ["--jobs", "1"])
        lines = ran.stdout.rstrip("\n").split("\n")
        if ran.returncode != 1 or not lines[-1].startswith("logic=not-proved") or any(RT.unread(it, texts) and not CITES.search(it) for it in lines):
            return []
        refused = []
        for line in lines:
            error = ERROR.match(line)
            if error and not CITES.search(line) and not BY_NAME_LINE.match(line):
                file = Path(self.crate.folder, error[1])
                proof = texts.get(error[1]) or file.read_text()
                clause = clause_at(proof.split("\n"), int(error[2]) - 1)
                named = [it for it in group if names_rule(clause, it.rule, brought_in(proof))]
                if len(named) == 1 and named[0] not in refused and not LOOKS[named[0].rule[1]].search(clause):
                    refused += named
        return refused

    def is_refused_by_functions(self, edit):
        """Whether the few functions of the crate refuse an edit of its definitions and proofs: a check of them alone leaves out lemmas that they do not cite."""
        names = functions_of(self.crate)
        if len(names) > 2 or not any(it.startswith("proofs/") for it in edit.texts):
            return False
        ran = self.checked(edit.texts, ["--jobs", "1", *[word for name in names for word in ("--only", name)]])
        lines = ran.stdout.rstrip("\n").split("\n")
        errors = [it for it in lines if re.match(r"\S+:\d+:\d+: error", it)]
        reached = ran.returncode == 1 and lines[-1].startswith("only=") and not any(RT.unread(it, edit.texts) for it in lines)
        return reached and any(not BY_NAME_LINE.match(it) for it in errors)

    def try_alone(self, edit):
        """Tries an edit alone over the kept work, and once more from nothing if it is not refused."""
        if self.is_refused_by_functions(edit):
            self.settle(edit, REFUSED)
            return
        self.is_whole = True
        room = self.rooms.get()
        try:
            came_to, said = RT.must_fail(self.crate, str(edit.path), ["--jobs", "1"], room)
        finally:
            self.rooms.put(room)
        if came_to == RT.MISSED:
            came_to, said = RT.must_fail(self.crate, str(edit.path), ["--jobs", "1"])
        why = said.partition(": ")[2]
        # (a run that was killed, or that met a limit of the prover, refuses nothing)
        if came_to == RT.REFUSED:
            self.settle(edit, BY_NAME if "only because a proof file names" in said else REFUSED, why)
        else:
            self.settle(edit, STANDING if came_to == RT.MISSED else BAD, why)

    def try_all(self, paths, pool):
        """Tries the edits, and answers whether each was refused and the crate itself is proved over the kept work."""
        edits = [read_edit(it, self.crate) for it in paths]
        for edit in edits:
            if edit.bad:
                self.settle(edit, BAD, edit.bad)
        in_bodies = [it for it in edits if not it.bad and it.function]
        groups = grouped(in_bodies)
        of_rules = [it for it in edits if not it.bad and it.rule]
        alone = [it for it in edits if not it.bad and not it.function and not it.rule]
        self.keeps = not self.is_proved or len(groups) > 2 or bool(of_rules or alone)
        waits = [pool.submit(self.try_group, it) for it in groups]
        # (where lemmas of one file fail, those of files above are not looked at)
        for alike in sorted({it.rule[:2] for it in of_rules}):
            waits.append(pool.submit(self.try_rules, [it for it in of_rules if it.rule[:2] == alike]))
        waits += [pool.submit(self.try_alone, it) for it in alone]
        for it in waits:
            it.result()
        if self.keeps or self.is_whole:
            flags = ["--jobs", "1"] if self.is_whole else only(in_bodies)
            if self.checked({}, flags).returncode:
                self.note(f"{self.crate.name}: NOT PROVED without any edit, so that no refusal counts")
                return False
        return all(it == REFUSED for it in self.found.values())


def hash_of(crate):
    """A hash of a crate's code, definitions and proofs, and of its edits in mutants/."""
    found = hashlib.sha256()
    for file in [TOP / "mutants" / f"{crate}.edits", *sorted(it for part in ("src", "specs", "proofs") for it in (TOP / "crates" / crate / part).rglob("*") if it.is_file())]:
        found.update(f"{file.relative_to(TOP)}\n".encode() + file.read_bytes())
    return found.hexdigest()


def tried():
    """What the hash of a crate was when all of its edits were refused, by the crate."""
    return dict(it.split() for it in TRIED.read_text().splitlines()) if TRIED.is_file() else {}


def note_tried(crate, state):
    """Notes that all edits of a crate were refused as it was of this hash."""
    noted = {**tried(), crate: state}
    TRIED.write_text("".join(f"{name} {it}\n" for name, it in sorted(noted.items())))


def label(path):
    """An edit by the name of its crate and its own."""
    for folder in (Path(SCRATCH.name), TOP):
        if path.is_relative_to(folder):
            return str(path.relative_to(folder))
    return str(path)


def edits_of(crate, words):
    """The files of the edits that are asked for."""
    found = sorted(unpack(crate, Path(SCRATCH.name, "mutants", crate)))
    if words.gate:
        found += sorted((TOP / "crates" / crate / "must-fail").glob("*.edit"))
    return [it for it in found if not words.edit or it.stem in words.edit or it.name in words.edit]


def over_libraries(crates, folder):
    """Has each crate take the libraries of the repository from a folder."""
    for crate in crates:
        crate.rlib = f"{os.path.abspath(folder)}/{crate.name}.rlib"


def read_words(argv):
    words = argparse.ArgumentParser(description=__doc__, formatter_class=argparse.RawDescriptionHelpFormatter)
    words.add_argument("crates", nargs="*", metavar="CRATE")
    words.add_argument("--changed", action="store_true")
    words.add_argument("--untried", action="store_true")
    words.add_argument("--edit", action="append", metavar="NAME")
    words.add_argument("--gate", action="store_true")
    words.add_argument("--jobs", type=int, default=1, metavar="N")
    words.add_argument("--libraries", metavar="DIR")
    return words.parse_args(argv)


def tell_untried():
    """Names the crates whose edits were not all refused on what they are now."""
    noted, names = tried(), sorted(crates_with_edits())
    untried = [name for name in names if noted.get(name) != hash_of(name)]
    print(f"edits of {len(names) - len(untried)} of {len(names)} crates were tried on what is here; untried: {' '.join(untried) or 'none'}")
    return 0


def main(argv):
    """Tries the edits that the words ask for."""
    words = read_words(argv)
    if words.untried:
        return tell_untried()
    noted = tried() if words.changed else {}
    os.chdir(TOP)
    # (the kit sets its signals, which the main thread alone may)
    RT.rtlib.guarded()
    known = {it.name: it for it in RT.rtlib.crates_below(str(TOP))}
    if words.libraries:
        over_libraries(known.values(), words.libraries)
    status = 0
    with ThreadPoolExecutor(words.jobs) as pool:
        for name in words.crates or crates_with_edits():
            begun = time.monotonic()
            if name not in known or not (paths := edits_of(name, words)):
                print(f"{name}: no such edits", flush=True)
                continue
            state = hash_of(name)
            if noted.get(name) == state:
                continue
            if not words.libraries and any(dep.build_rlib(["--jobs", "1"], anew=False) for dep in known[name].below()):
                print(f"{name}: a library below it is not proved", flush=True)
                status = 1
                continue
            is_proved = not known[name].is_program and known[name].is_built()
            crate = Crate(known[name], words.jobs, is_proved, lambda line: print(line, flush=True))
            well = crate.try_all(paths, pool)
            count = lambda verdict: sum(it == verdict for it in crate.found.values())
            told = ", ".join(f"{count(it)} {it.lower()}" for it in (BY_NAME, STANDING, BAD) if count(it))
            print(f"{name}: {count(REFUSED)} of {len(paths)} refused{', ' + told if told else ''}, {time.monotonic() - begun:.0f} s", flush=True)
            if well and not words.edit:
                note_tried(name, state)
            status |= not well
    return int(status)


if __name__ == "__main__":
    sys.exit(main(sys.argv[1:]))
