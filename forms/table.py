"""Reads forms.txt."""
import re


class TableError(Exception):
    """A line of the table that cannot be read."""


COUNTS = {"": "One", "?": "Option", "*": "List", "?*": "ListOfOptions", "*?": "OptionOfList"}
LEAVES = ("flag", "scope", "text", "range")


class Field:
    """A field of a form: what stands there, how often (as the table writes it), and its comment."""

    def __init__(self, name, type, count, doc):
        self.name, self.type, self.count, self.doc = name, type, count, doc

    @property
    def leaf(self):
        """The leaf that always stands there, or none: then the form has a part of the tree."""
        return self.type if self.count == "" and self.type in LEAVES else None


class Form:
    """A form, or a mark: a node that stands round what it holds, and has no fields in JSON."""

    def __init__(self, name, fields, mark, doc, chapter, file):
        self.name, self.fields, self.mark = name, fields, mark
        self.doc, self.chapter, self.file = doc, chapter, file

    def has(self, leaf):
        return any(field.leaf == leaf for field in self.fields)


class Choice:
    """A choice with its variants, each a name and what it holds."""

    def __init__(self, name, variants, doc, chapter, file):
        self.name, self.variants, self.doc = name, variants, doc
        self.chapter, self.file = chapter, file


class Row:
    """What is seen of each field of an expression that stays by its parts, and the forms that stay by it, each with its rule's name."""

    def __init__(self, name, slots, doc):
        self.name, self.slots, self.doc, self.forms = name, slots, doc, []


class Chapter:
    def __init__(self, name, title, doc):
        self.name, self.title, self.doc = name, title, doc


class File:
    """A file of forms or choices: its first words, its order where that is not the table's, and which proofs it has."""

    def __init__(self, crate, name, doc):
        self.crate, self.name, self.doc = crate, name, doc
        self.order, self.searched, self.within = [], [], []


class Table:
    def __init__(self, text):
        self.fields, self.chapters, self.forms, self.choices = {}, [], {}, {}
        self.words, self.crates, self.files, self.rows, self.places = {}, {}, {}, [], []
        self.section, self.file, self.last = None, None, None
        for number, line in logical_lines(text):
            try:
                self.read(line)
            except TableError as error:
                raise SystemExit(f"forms.txt, line {number}: {error}")
        self.complete()

    def read(self, line):
        word, _, rest = line.strip().partition(" ")
        if line in ("fields", "files", "rows", "places"):
            self.section = line
        elif word == "chapter":
            self.section = "forms"
            name, title, doc = parts(r"(\w+): (.*) -- (.*)", rest)
            self.chapters.append(Chapter(name, title, doc))
        elif self.section == "fields":
            self.read_field_rule(line)
        elif self.section == "files":
            self.read_file(line, word, rest)
        elif self.section == "rows":
            self.read_row(line)
        elif self.section == "places":
            self.places += [self.place(text) for text in line.split(", ")]
        elif line.startswith(" "):
            self.read_note(line)
        elif word == "in":
            self.file = rest
        elif line.split()[1:2] == ["="]:
            self.read_choice(line)
        else:
            self.read_form(line)

    def read_field_rule(self, line):
        names, type, doc = parts(r"([\w, ]+): (\w+\*?)(?: -- (.*))?", line)
        for name in names.split(", "):
            self.fields[name] = (type, doc)

    def read_form(self, line):
        pattern = r"(mark )?(\w+)(°?)(?: \{ (.*?) \})? -- (.*)"
        mark, name, bare, fields, doc = parts(pattern, line)
        self.see_new(name)
        fields = [self.field(field) for field in fields.split(", ")] if fields else []
        if not bare:
            fields.insert(0, Field("span", "range", "", None))
        chapter = self.chapters[-1].name
        self.last = self.forms[name] = Form(name, fields, bool(mark), doc, chapter, self.file)

    def field(self, text):
        name, type, count = parts(r"(\w+)(?:: (\w+))?([?*]*)", text)
        doc = None
        if type is None:
            if name not in self.fields:
                raise TableError(f"what stands in {name}?")
            type, doc = self.fields[name]
            if type.endswith("*"):
                type, count = type[:-1], "*" + count
        if count not in COUNTS:
            raise TableError(f"how often does {name} stand?")
        return Field(name, type, count, doc)

    def see_new(self, name):
        if self.holds(name):
            raise TableError(f"{name} stands there twice")

    def read_note(self, line):
        name, doc = parts(r" +(\w+) --(?: (.*))?", line)
        fields = [field for field in self.last.fields if field.name == name]
        if not fields:
            raise TableError(f"{self.last.name} has no field {name}")
        fields[0].doc = doc or ""

    def read_choice(self, line):
        name, variants, doc = parts(r"(\w+) = (.*?)(?: -- (.*))?", line)
        self.see_new(name)
        variants = variants.split(" | ")
        if variants[0].startswith('"'):
            self.words[name] = (self.chapters[-1].name, [word.strip('"') for word in variants])
            return
        pairs = [parts(r"(\w+)(?:\((\w+)\))?", variant) for variant in variants]
        pairs = [(variant, content or variant) for variant, content in pairs]
        self.choices[name] = Choice(name, pairs, doc, self.chapters[-1].name, self.file)

    def read_file(self, line, word, rest):
        if word == "crate":
            self.crate, _, doc = rest.partition(" -- ")
            self.crates[self.crate] = doc
        elif word == "file":
            name, _, doc = rest.partition(" -- ")
            self.last = self.files[name] = File(self.crate, name, doc)
        elif word == "order":
            self.last.order = rest.split(", ")
        elif word == "search":
            self.last.searched = rest.split(", ")
        elif word == "within":
            self.last.within = rest.split(", ")
        else:
            raise TableError("what is " + word + "?")

    def read_row(self, line):
        if not line.startswith(" "):
            name, slots, doc = parts(r"(\w+) = ([\w, ]+) -- (.*)", line)
            self.rows.append(Row(name, slots.split(", "), doc))
            return
        form, rule = parts(r" +(\w+) by (\w+)", line)
        if form not in self.forms or len(self.forms[form].fields) != len(self.rows[-1].slots):
            raise TableError(f"{form} has no field for each slot of {self.rows[-1].name}")
        self.rows[-1].forms.append((form, rule))

    def place(self, text):
        """A form, one of its fields, and where the field stands among the form's parts."""
        name, wanted = parts(r"(\w+)\.(\w+)", text)
        for place, field in enumerate(self.forms[name].fields if name in self.forms else []):
            if field.name == wanted:
                return self.forms[name], field, place
        raise TableError(f"there is no {text}")

    def complete(self):
        """Sees that all that is named is there, and gives fields the comments that follow from their types."""
        for item in list(self.forms.values()) + list(self.choices.values()):
            if item.file not in self.files:
                raise SystemExit(f"forms.txt: {item.name} stands in {item.file}, which is no file")
        for file in self.files.values():
            for name in file.order + file.within + [method.split(".")[0] for method in file.searched]:
                if not self.holds(name):
                    raise SystemExit(f"forms.txt: {file.name} names {name}, and nothing has that name")
        for form in self.forms.values():
            for field in form.fields:
                if field.type not in LEAVES and not self.holds(field.type):
                    raise SystemExit(f"forms.txt: {form.name} has a {field.type}, and nothing has that name")
                if field.doc is None:
                    field.doc = self.field_doc(field)
        for choice in self.choices.values():
            for _, content in choice.variants:
                if content not in self.forms and content not in self.choices:
                    raise SystemExit(f"forms.txt: {choice.name} has a {content}, and nothing has that name")

    def holds(self, type):
        return type in self.forms or type in self.choices or type in self.words

    def field_doc(self, field):
        type, count = field.type, field.count
        if type in LEAVES:
            return "A text, or absent." if (type, count) == ("text", "?") else ""
        if type in self.words:
            return words_doc(self.words[type][1]) + (", or absent." if count == "?" else ".")
        one = ("An" if type[0] in "AEIO" else "A") + f" `{type}`"
        return {
            "": f"{one}.",
            "?": f"{one}, or absent.",
            "*": f"A list of `{type}`.",
            "?*": f"A list of `{type}`, with an absent one for each hole.",
            "*?": f"A list of `{type}`, or absent.",
        }[count]

    def true_forms(self):
        return [form for form in self.forms.values() if not form.mark]

    def marks(self):
        return [form for form in self.forms.values() if form.mark]

    def forms_of(self, file):
        return in_order(file, [form for form in self.forms.values() if form.file == file.name])

    def choices_of(self, file):
        return in_order(file, [choice for choice in self.choices.values() if choice.file == file.name])

    def files_of(self, crate):
        return [file for file in self.files.values() if file.crate == crate]

    def form_crates(self):
        return [crate for crate in self.crates if crate != "tree_forms"]


def parts(pattern, text):
    """What the groups of the pattern are in the text."""
    found = re.fullmatch(pattern, text)
    if not found:
        raise TableError(f"cannot be read: {text.strip()}")
    return found.groups()


def logical_lines(text):
    """The lines with their numbers, without comments, and each with the lines that go on with it."""
    lines = []
    for number, line in enumerate(text.split("\n"), 1):
        line = line.rstrip()
        if not line or line.startswith("#"):
            continue
        goes_on = line.strip()[:2] in ("--", "| ") or lines and lines[-1][1].endswith(",")
        if goes_on and line.startswith(" "):
            lines[-1] = (lines[-1][0], lines[-1][1] + " " + line.strip())
        else:
            lines.append((number, line))
    return lines


def in_order(file, items):
    """As the file's order says; what it does not name stands behind, in the order of the table."""
    place = {name: at for at, name in enumerate(file.order)}
    return sorted(items, key=lambda item: place.get(item.name, len(place)))


def words_doc(words):
    if len(words) > 3:
        return f"A word, from `{words[0]}` to `{words[-1]}`"
    return "The word " + ", ".join(f"`{word}`" for word in words[:-1]) + f" or `{words[-1]}`"
