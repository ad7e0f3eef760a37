"""What is written from diagnostics.txt: texts of code and definitions, codes of the front end, and what pages say of each diagnostic."""
import json
import re
from pathlib import Path

from layout import constant

PAGE = Path(__file__).resolve().parent / "diagnostics.txt"
CRATE = "crates/fast_check_tables_diagnostics"
# How code writes a field of a diagnostic in a text, and how definitions do.
SPOKEN = {"specifier": "serialize specifier"}


class Diagnostic:
    """A row: the variant with its fields, and what is said of it. A text is itself, the name of a text behind `=`, or what a call gives behind `by `."""

    def __init__(self, head):
        self.variant, fields, self.code, warning = re.fullmatch(r"(\w+) \{ (.*) \} ([a-z-]+)( warning)?", head).groups()
        self.fields, self.is_warning = fields.split(", "), bool(warning)
        self.message, self.range, self.hint, self.lines, self.given, self.at = "", None, None, [], None, None

    def read(self, line):
        key, _, text = line.strip().partition(": ")
        if key == "line":
            self.lines.append(text)
        elif key in ("message", "range", "hint", "given", "at"):
            setattr(self, key, text)
        else:
            raise SystemExit(f"diagnostics.txt: what is '{key}' of {self.variant}?")


def read_page():
    """The named texts, and the rows."""
    texts, rows = {}, []
    for line in PAGE.read_text().split("\n"):
        if re.match(r"[A-Z_]+: ", line):
            name, _, texts_of_name = line.partition(": ")
            texts[name] = texts_of_name
        elif line.startswith("    "):
            rows[-1].read(line)
        elif line and not line.startswith("#"):
            rows.append(Diagnostic(line))
    return texts, rows


def quoted(text):
    return json.dumps(text, ensure_ascii=False)


def holds_fields(text):
    return text is not None and "{" in text


# Code: the static texts of each kind, and the messages that go by fields.


def text_in_code(text):
    return text[1:] if text.startswith("=") else quoted(text)


def field_in_code(name, before, items, after):
    """A field of a record: in a line where it fits, else an item in each line."""
    inside = ", ".join(items)
    line = f"    {name}: {before}{inside}{after},"
    if len(line) <= 100 and (len(items) < 2 or len(inside) <= 60):
        return [line]
    return [f"    {name}: {before}"] + [f"        {item}," for item in items] + [f"    {after},"]


def option_in_code(name, text):
    if text is None or text.startswith("by ") or holds_fields(text):
        return [f"    {name}: None,"]
    return field_in_code(name, "Some(", [text_in_code(text)], ")")


def static_name(row):
    return constant(row.variant.replace("JavaScript", "Javascript"))


def static_texts(row):
    shown = [text_in_code(line) for line in row.lines if not line.startswith("by ")]
    return [
        "",
        f"pub(crate) static {static_name(row)}: Texts = Texts {{",
        f"    code: {quoted(row.code)},",
        f"    message: {quoted('' if holds_fields(row.message) else row.message)},",
        *option_in_code("range_description", row.range),
        *option_in_code("hint", row.hint),
        *field_in_code("info", "&[", shown, "]"),
        "};",
    ]


def named_text(name, text):
    line = f"pub(crate) const {name}: &str = {quoted(text)};"
    return ["", line] if len(line) <= 100 else ["", f"pub(crate) const {name}: &str =", f"    {quoted(text)};"]


def code_texts(texts, rows):
    return [line for name, text in texts.items() for line in named_text(name, text)] + [line for row in rows for line in static_texts(row)] + [""]


def pattern_in_code(row):
    """The pattern of a variant whose message goes by its fields."""
    used = [field for field in row.fields if f"{{{field}}}" in row.message]
    inside = used + ([] if len(used) == len(row.fields) else [".."])
    if len(", ".join(inside)) <= 18:
        return [f"Self::{row.variant} {{ {', '.join(inside)} }}"]
    return [f"Self::{row.variant} {{"] + [f"    {field}," if field != ".." else "    .." for field in inside] + ["}"]


def message_in_code(row):
    pattern = pattern_in_code(row)
    line = f"{pattern[-1]} => write!(f, {quoted(row.message)}),"
    if len(pattern) > 1 or len(line) > 88:
        return pattern[:-1] + [f"{pattern[-1]} => write!(", "    f,", f"    {quoted(row.message)}", "),"]
    return [line]


def code_messages(rows):
    arms = [line for row in rows if holds_fields(row.message) for line in message_in_code(row)]
    return ["        match self {"] + [f"            {line}" for line in arms] + ["            _ => f.write_str(self.texts().message),", "        }"]


def code_hints(rows):
    lines = []
    for row in rows:
        if holds_fields(row.hint):
            used = [field for field in row.fields if f"{{{field}}}" in row.hint]
            lines += [
                f"            Self::{row.variant} {{ {', '.join(used + ['..'])} }} => {{",
                "                let hint = format!(in alloc;",
                f"                    {quoted(row.hint)}",
                "                )?;",
                "                Ok(Some(hint))",
                "            }",
            ]
    return lines


# Definitions: the named texts, and the table.


def joined(terms):
    """Lists of bytes, one behind the other."""
    if len(terms) == 1:
        return terms[0]
    rest = joined(terms[1:])
    return f"{terms[0]} ++ {rest if len(terms) == 2 else f'({rest})'}"


def spoken(text):
    """A text as a list of bytes, with the fields that it holds."""
    parts = re.split(r"\{(\w+)\}", text)
    return joined([f"codes {quoted(part)}" if place % 2 == 0 else SPOKEN.get(part, f"string_bytes {part}") for place, part in enumerate(parts) if part])


def in_definition(text, row):
    if text.startswith("="):
        return text[1:].lower()
    if text.startswith("by "):
        return " ".join([text[3:]] + row.fields[1:])
    return f"({spoken(text)})"


def option_in_definition(text, row):
    if text is None:
        return "None"
    said = in_definition(text, row)
    return f"(Some {said if said.startswith('(') or ' ' not in said else f'({said})'})"


def lines_in_definition(row):
    if row.lines[0].startswith("by "):
        return f"({in_definition(row.lines[0], row)})"
    return "(" + "".join(f"{line[1:].lower() if line.startswith('=') else spoken(line)} ∷ " for line in row.lines) + "[])"


def definition_row(row):
    subject = ("Part " if row.fields[0] == "range" else "Whole ") + row.fields[0]
    return [
        f"report_of ({row.variant} {' '.join(row.fields)}) = row ({subject}) {'Warning' if row.is_warning else 'Error'} (codes {quoted(row.code)})",
        f"    {in_definition(row.message, row)}",
        f"    {option_in_definition(row.range, row)} {option_in_definition(row.hint, row)}",
        f"    {lines_in_definition(row)}",
    ]


def definition_texts(texts):
    lines = []
    for name, text in texts.items():
        lines += ["", f"abbrev pub {name.lower()} : List ℕ", f"{name.lower()} = codes {quoted(text)}"]
    return lines + [""]


# The front end.


def front_end(texts, rows):
    lines = []
    for row in rows:
        if row.code in ("emit", "cached"):
            continue
        told = {}
        if row.range is not None:
            told["label"] = texts[row.range[1:]] if row.range.startswith("=") else row.range
        if holds_fields(row.message) and "specifier" not in row.fields:
            told["message"] = row.message
        inside = ", ".join(f"{key}: {single_quoted(value)}" for key, value in told.items())
        lines.append(f"  {single_quoted(row.code)}: {'{ ' + inside + ' }' if inside else '{}'},")
    return lines


def single_quoted(text):
    return quoted(text) if "'" in text else f"'{text}'"


def front_end_returns(texts):
    names = {"anything": "RETURN_TYPE", "nothing": "RETURN_NOTHING", "promise": "RETURN_PROMISE", "promiseLine": "PROMISE_RETURNED"}
    return [f"  {key}: {single_quoted(texts[name])}," for key, name in names.items()]


# Pages.


def page_row(row):
    warning = " (a warning)" if row.is_warning else ""
    return f"| `{row.variant}`{warning} | {row.given} | {row.at or 'none'} |"


def message_on_page(row):
    return re.sub(r"\{(\w+)\}", "..", row.message)


def write_diagnostics(table, out):
    texts, rows = read_page()
    out.as_it_stands(f"{CRATE}/src/diagnostics/texts.rt", "// What follows is written by forms/write.py from forms/diagnostics.txt.", None, code_texts(texts, rows)[:-1])
    out.as_it_stands(
        f"{CRATE}/src/diagnostics.rt", "    // Written by forms/write.py from forms/diagnostics.txt, up to the closing bracket.", "    }",
        ["    fn fmt<W: fmt::Write>(&self, f: &mut fmt::Formatter<W>) -> fmt::Result {"] + code_messages(rows))
    shown = f"{CRATE}/src/diagnostics/shown.rt"
    out.as_it_stands(shown, "            // Written by forms/write.py from forms/diagnostics.txt, up to the default.", "            _ => optional(alloc, self.texts().hint),", code_hints(rows))
    definition = f"{CRATE}/specs/Diagnostic.antt"
    out.as_it_stands(definition, "-- Named texts, written by forms/write.py from forms/diagnostics.txt.", "-- of a function without return type: is it definitely void or never, and is it asynchronous?", definition_texts(texts))
    head = ["unfoldable pub report_of : FastCheckDiagnostic → Report"]
    out.as_it_stands(definition, "-- the reader, what can be done about it, and lines that say more. Written by forms/write.py from forms/diagnostics.txt.",
                     "-- the module, and the part of its source text, that it speaks of, if any", head + [line for row in rows for line in definition_row(row)] + [""])
    codes = "tools/typescript/src/messages/codes.js"
    out.as_it_stands(codes, "const PROGRAM = { // written by forms/write.py from forms/diagnostics.txt", "};", front_end(texts, rows))
    out.as_it_stands(codes, "const RETURNS = { // written by forms/write.py from forms/diagnostics.txt", "};", front_end_returns(texts))
    out.as_it_stands("docs/proofs/rules.md", "| Kind | Given by | Range |", "", ["|---|---|---|"] + [page_row(row) for row in rows])
    for row in rows:
        page = f"docs/errors/{row.code}.md"
        if (PAGE.parent.parent / page).exists():
            lines = out.lines_of(page)
            out.files[page] = "\n".join(lines[:2] + [f"> {message_on_page(row)}"] + lines[3:])
            out.counts[page] = 1
