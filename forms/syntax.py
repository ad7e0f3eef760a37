"""Reads syntax.txt, and writes the table of `fast_check_syntax_table`: its rows as constants, and which rows a form has."""
import re
from pathlib import Path

from layout import camel, constant

CRATE = "crates/fast_check_syntax_table"
# The ways besides the whole. Where a form has no line for one, it is written as a whole, or, in a way that is a part of the whole alone, not at all.
WAYS = {
    "decorators": "nothing", "modifiers": "nothing", "async": "nothing", "star": "nothing",
    "bare": "whole", "head": "whole", "definite": "whole", "optional": "whole", "in": "whole",
    "member": "whole",
}
WORDS = {"Method": None, "Getter": "get", "Setter": "set", "KeyOf": "keyof", "ReadOnly": "readonly"}
PHRASES = {"defer": "Defer", "source": "Source", "new.target": "NewTarget", "import.meta": "ImportMeta", "+": "Plus", "-": "Minus"}
TOKEN = re.compile(r"""\s+|"(?P<text>[^"]*)"|(?P<name>[A-Za-z_]\w*)|(?P<sign>,,|[][=:%@?(),;~|&'])""")
CALLS = ("name", "private", "number", "raw", "quasi", "regex", "template", "members", "holes", "clause", "names", "arrow")


def keyword(word):
    """The keyword for a word of a list, or none where nothing is written."""
    found = re.fullmatch(r"Ts(\w+)Keyword", word)
    return found[1].lower() if found else WORDS.get(word, word.lower())


class Line:
    """The tokens of a line of the table, which is read piece by piece into rows: when, what, and the text of each."""

    def __init__(self, table, form, text):
        self.table, self.form, self.rows = table, table.forms[form], []
        self.tokens, at = [], 0
        # a colon right before a field does not stand between two cases
        text = re.sub(r"(^|[ (]):(?=[a-z])", r"\1%", text)
        while at < len(text):
            found = TOKEN.match(text, at)
            if not found:
                raise SystemExit(f"syntax.txt: {form}: {text[at:]}")
            if found.lastgroup:
                self.tokens.append((found.lastgroup, found[found.lastgroup]))
            at = found.end()
        while self.tokens:
            self.piece("Always")

    def fail(self, what):
        raise SystemExit(f"syntax.txt: {self.form.name}: {what}")

    def sees(self, *signs):
        return self.tokens[: len(signs)] == [("sign", sign) for sign in signs]

    def compares(self):
        return self.sees("=") and self.tokens[1][0] == "text"

    def take(self, sign=None):
        if not self.tokens or sign and not self.sees(sign):
            self.fail(f"a {sign} is missing")
        return self.tokens.pop(0)[1]

    def field(self, name):
        for place, field in enumerate(self.form.fields):
            if field.name == name:
                return place, field
        self.fail(f"there is no field {name}")

    def place(self, name):
        return self.field(name)[0]

    def put(self, when, what, text=""):
        self.rows.append((when, what, text))

    def marks(self, when, text):
        for mark in text.split(" "):
            self.put(when, "Mark", mark)

    def piece(self, when):
        kind, text = self.tokens.pop(0)
        if kind == "text":
            self.marks(when, text)
        elif text == "[":
            self.put(when, "May", self.take())
            self.take("]")
        elif text == ";":
            self.put(when, "Semicolon")
        elif text == "%":
            place = self.place(self.take())
            self.only(when)
            self.put(f"There({place})", "Mark", ":")
            self.put("Always", f"Part({place}, Slot::Whole)")
        elif text == "=":
            self.put(when, f"Text({self.place(self.take())})")
        elif text == "@":
            self.only(when)
            self.words(self.take())
        elif kind != "name":
            self.fail(text)
        else:
            self.named(when, text)

    def only(self, when):
        if when != "Always":
            self.fail("two conditions at once")

    def named(self, when, name):
        if name == "leading":
            self.put(when, "May", "|")
            self.put(when, "May", "&")
        elif name == "attributes":
            self.put(when, "Attributes")
        elif name == "never":
            self.put(when, "Never")
        elif self.compares() or self.sees("~") or self.sees("?", "(") or name in ("neither", "starts"):
            self.only(when)
            self.condition(*self.test(name))
        elif self.sees("("):
            self.call(when, name)
        elif self.sees("'"):
            self.take()
            way = self.take()
            self.put(when, f"Part({self.place(name)}, Slot::{camel(way)})")
        elif self.sees(","):
            self.take()
            self.put(when, f"Listed({self.place(name)})", ",")
        elif self.sees(",,"):
            self.take()
            self.put(when, f"Joined({self.place(name)})", ",")
        else:
            self.put(when, f"Part({self.place(name)}, Slot::Whole)")

    def test(self, name):
        """A condition, and the other one."""
        if name in ("neither", "starts"):
            places = ", ".join(str(self.place(field)) for field in self.arguments())
            return {"neither": (f"Neither({places})", None), "starts": (f"Starts({places})", f"Follows({places})")}[name]
        place, field = self.field(name)
        if self.compares():
            self.take()
            return f"Reads({place}, Phrase::{PHRASES[self.take()]})", None
        if self.sees("~"):
            self.take()
            kind = self.take()
            return f"Is({place}, Kind::{kind})", f"IsNot({place}, Kind::{kind})"
        if field.count == "*?" or field.type == "range":
            return f"There({place})", f"Gone({place})"
        return f"Has({place})", f"Lacks({place})"

    def condition(self, yes, no):
        self.take("?")
        self.take("(")
        while not self.sees(")") and not self.sees(":"):
            self.piece(yes)
        if self.sees(":"):
            self.take()
            if no is None:
                self.fail("there is no other case")
            while not self.sees(")"):
                self.piece(no)
        self.take(")")

    def arguments(self):
        self.take("(")
        found = []
        while not self.sees(")"):
            found.append(self.take())
        self.take(")")
        return found

    def call(self, when, name):
        arguments = self.arguments()
        if name == "modifiers":
            self.only(when)
            self.modifiers(arguments)
        elif name == "joined":
            self.put(when, f"Joined({self.place(arguments[0])})", arguments[1])
        elif name == "exported":
            self.put(when, f"Exported({self.place(arguments[0])})", " ".join(arguments[1:]))
        elif name in CALLS:
            places = ", ".join(str(self.place(field)) for field in arguments)
            self.put(when, f"{name.capitalize()}({places})")
        else:
            self.fail(name)

    def modifiers(self, names):
        for name in names:
            if self.field(name)[1].type == "flag":
                self.put(f"Has({self.place(name)})", "Mark", name.removeprefix("is_"))
            else:
                self.words(name)

    def words(self, name):
        place, field = self.field(name)
        for word in self.table.words[field.type][1]:
            if keyword(word):
                self.put(f"Says({place}, Word::{word})", "Mark", keyword(word))


class Syntax:
    """The lines of syntax.txt: for each form and way its rows."""

    def __init__(self, table, text):
        self.table, self.rows = table, {}
        for line in text.split("\n"):
            if line.strip() and not line.startswith("#"):
                head, _, pieces = line.split(" -- ")[0].partition(":")
                form, _, way = head.partition("'")
                if form not in table.forms or way and way not in WAYS or (form, way) in self.rows:
                    raise SystemExit(f"syntax.txt: what is {head}?")
                self.rows[form, way] = Line(table, form, pieces.strip()).rows
        for form in table.forms:
            if (form, "") not in self.rows:
                raise SystemExit(f"syntax.txt: {form} has no line")

    def lines_of(self, chapter):
        return [(form, way) for form, way in self.rows if self.chapter(form) == chapter]

    def chapter(self, form):
        return self.table.files[self.table.forms[form].file].crate.removeprefix("tree_forms_")

    def chapters(self):
        return [crate.removeprefix("tree_forms_") for crate in self.table.form_crates()]

    def ways_of(self, way):
        return [form for form, own in self.rows if own == way]


def name_of(form, way):
    return constant(form) + (f"_{way.upper()}" if way else "")


def row(when, what, text):
    """The lines of a row, without a comma after it."""
    words = [f"When::{when}", f"What::{what}", f'"{text}"']
    line = ", ".join(words)
    return [f"({line})"] if len(line) <= 60 else ["("] + [f"    {word}," for word in words] + [")"]


def constant_of(name, rows):
    head = f"pub(crate) static {name}: [Piece; {len(rows)}] = ["
    if len(rows) == 1:
        line = head + row(*rows[0])[0] + "];"
        return [line] if len(line) <= 100 else [head + "("] + [f"    {word}," for word in (f"When::{rows[0][0]}", f"What::{rows[0][1]}", f'"{rows[0][2]}"')] + [")];"]
    lines = [head]
    for found in rows:
        own = row(*found)
        own[-1] += ","
        lines += [f"    {line}" for line in own]
    return lines + ["];"]


def constants(syntax, chapter):
    """The rows of the forms of a chapter."""
    lines = [f"//! What each form writes: the forms of {chapter}.", "use crate::piece::{Phrase, Piece, Slot, What, When};", "use fast_check_tree_syntax::{Kind, Word};"]
    body = []
    for form, way in syntax.lines_of(chapter):
        body += [""] + constant_of(name_of(form, way), syntax.rows[form, way])
    text = "\n".join(body)
    names = [name for name in ("Phrase", "Piece", "Slot", "What", "When") if name == "Piece" or f"{name}::" in text]
    lines[1] = f"use crate::piece::{{{', '.join(names)}}};"
    outer = [name for name in ("Kind", "Word") if f"{name}::" in text]
    lines[2:] = [] if not outer else [f"use fast_check_tree_syntax::{outer[0]};"] if len(outer) == 1 else [lines[2]]
    return lines + body


def lookup(syntax):
    """Which rows a form has in each way."""
    lines = [
        "//! What each form writes, by its kind.",
        "ghost use Rattle.std.specs.Prelude.{◌≡◌, map};",
        "ghost use Rattle.fast_check_syntax_table.specs.Rows.{row};",
        "ghost use Rattle.fast_check_syntax_table.specs.Table.{",
    ]
    names = ["table", "whole_table"] + [f"{way}_table" for way in WAYS]
    lines += [f"  {name}," for name in names] + ["};", ""]
    lines += ["use crate::piece::{Piece, Slot};", f"use crate::{{{', '.join(sorted(syntax.chapters()))}}};", "use fast_check_tree_syntax::Kind;", ""]
    lines += [
        "/// What a node of a kind writes in a way.",
        "pub fn pieces(kind: Kind, slot: Slot) -> &'static [Piece]",
        "    ensures { map row result.now ≡ table kind slot }",
        "{",
        "    match slot {",
        "        Slot::Whole => whole(kind),",
    ]
    lines += [f"        Slot::{camel(way)} => {function(way)}(kind)," for way in WAYS] + ["    }", "}"]
    for way in ["whole"] + list(WAYS):
        own = "" if way == "whole" else way
        other = "whole(kind)" if WAYS.get(way) == "whole" else "&[]"
        lines += ["", f"fn {function(way)}(kind: Kind) -> &'static [Piece]", f"    ensures {{ map row result.now ≡ {way}_table kind }}", "{", "    match kind {"]
        lines += [f"        Kind::{form} => &{syntax.chapter(form)}::{name_of(form, own)}," for form in syntax.ways_of(own)]
        lines += [f"        _ => {other},", "    }", "}"]
    return lines


def function(way):
    return {"async": "asynchronous", "in": "mapped"}.get(way, way)


def definition(syntax):
    """The definition of the table, which cites the rows of the code."""
    module = "Rattle.fast_check_syntax_table.specs.declared"
    lines = [
        "-- What each form writes, as the constants of the code have it: forms/syntax.txt, read aloud.",
        "use Rattle.std.specs.Prelude.{List, []}",
        "use Rattle.fast_check_tree_syntax.specs.declared.kind.Kind.{Kind}",
        "use Rattle.fast_check_tree_syntax.specs.declared.kind.Kind.TheVariants as kinds",
        f"use {module}.piece.Slot.{{Slot}}",
        f"use {module}.piece.Slot.TheVariants as slots",
    ]
    lines += [f"use {module}.{chapter}.TheConstants as {chapter}" for chapter in syntax.chapters()]
    lines += ["use Rattle.fast_check_syntax_table.specs.Rows.{Row, rows_of}"]
    for way in ["whole"] + list(WAYS):
        own = "" if way == "whole" else way
        lines += ["", f"abbrev pub {way}_table : Kind → List Row"]
        lines += [f"{way}_table kinds.{form} = rows_of {syntax.chapter(form)}.{name_of(form, own)}" for form in syntax.ways_of(own)]
        other = "kind = whole_table kind" if WAYS.get(way) == "whole" else "_ = []"
        lines += [f"{way}_table {other}"]
    lines += ["", "abbrev pub table : Kind → Slot → List Row", "table kind slots.Whole = whole_table kind"]
    return lines + [f"table kind slots.{camel(way)} = {way}_table kind" for way in WAYS]


def write_syntax(table, out):
    syntax = Syntax(table, (Path(__file__).resolve().parent / "syntax.txt").read_text())
    for chapter in syntax.chapters():
        out.whole(f"{CRATE}/src/{chapter}.rt", constants(syntax, chapter))
    out.whole(f"{CRATE}/src/table.rt", lookup(syntax))
    out.whole(f"{CRATE}/specs/Table.antt", definition(syntax))
