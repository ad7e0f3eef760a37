"""The kinds of nodes, and the tables of the JSON (the module `schema` of fast_check_read)."""
from layout import brackets, constant
from table import COUNTS


def all_kinds(table):
    forms = [form.name for form in table.true_forms()]
    return ["Leaf", "List"] + forms + [mark.name for mark in table.marks()]


def no_forms(table):
    """The kinds that have no fields in JSON."""
    return ["Leaf", "List"] + [mark.name for mark in table.marks()]


def all_words(table):
    return [word for _, words in table.words.values() for word in words]


def kind_code(table):
    """The kinds and the words of the plain tree."""
    derived = "#[derive(Clone, Copy, PartialEq, Eq, Debug)]"
    lines = ["//! The kinds of nodes, and the words that stand for choices without content.", ""]
    lines += ["/// What a node of the tree is: the syntax form that it stands for.", derived, "pub enum Kind {"]
    lines += ["    /// No node: an empty option, a flag, a text, a range or a word."]
    lines += [f"    {kind}," for kind in all_kinds(table)] + ["}", ""]
    lines += ["/// A choice without content, as the `const` of a declaration.", derived, "pub enum Word {"]
    return lines + [f"    {word}," for word in all_words(table)] + ["}"]


LEAF_FORMS = {"flag": "Form::Flag", "scope": "Form::Context", "text": "Form::Text", "range": "Form::Range"}


def schema_form(table, type):
    if type in LEAF_FORMS:
        return LEAF_FORMS[type]
    if type in table.words:
        return f"Form::Word(Words::{type})"
    if type in table.choices:
        return f"Form::Choice(Choice::{type})"
    return ("Form::Marked" if table.forms[type].mark else "Form::Struct") + f"(Kind::{type})"


def table_static(name, row, rows):
    """A static table. A row is `SPAN`, or the texts of a tuple."""
    head = f"pub static {name}: [{row}; {len(rows)}] = ["
    lines = brackets(head, [item if isinstance(item, str) else tuple_item(item) for item in rows], "];", 0, 60)
    if len(rows) == 1 and len(lines) > 1:
        lines = brackets(head + "(", rows[0], ")];", 0, 0)
    return [""] + lines


def tuple_item(parts):
    return lambda indent: brackets("(", parts, ")", indent, 60)


def schema_chapter(table, chapter):
    """The tables of a chapter of the schema."""
    forms = [form for form in table.true_forms() if form.chapter == chapter.name]
    choices = [choice for choice in table.choices.values() if choice.chapter == chapter.name]
    words = [(name, words) for name, (place, words) in table.words.items() if place == chapter.name]
    lines = []
    for form in forms:
        rows = [schema_field(table, field) for field in form.fields]
        lines += table_static(constant(form.name), "Field", rows)
    for choice in choices:
        rows = [[f'"{variant}"', schema_form(table, content)] for variant, content in choice.variants]
        lines += table_static(constant(choice.name) + "_VARIANTS", "Variant", rows)
    for name, list in words:
        rows = [[f'"{word}"', f"Word::{word}"] for word in list]
        lines += table_static(constant(name) + "_WORDS", "Named", rows)
    text = "\n".join(lines)
    taken = [("Choice", "Choice::" in text), ("Count", True), ("Field", True), ("Form", True), ("Named", words)]
    taken += [("SPAN", "SPAN" in text), ("Variant", choices), ("Words", "Words::" in text)]
    uses = ["use crate::schema::form::{" + ", ".join(name for name, is_taken in taken if is_taken) + "};"]
    uses.append("use fast_check_tree_syntax::{Kind, Word};" if words else "use fast_check_tree_syntax::Kind;")
    return [f"//! {chapter.doc}", ""] + uses + lines


def schema_field(table, field):
    if field.name == "span":
        return "SPAN"
    return [f'"{field.name}"', schema_form(table, field.type), "Count::" + COUNTS[field.count]]


def schema_tables(table):
    """The calls that find the table of a form, of a choice and of a list of words."""
    chapters = ", ".join(sorted(chapter.name for chapter in table.chapters))
    none = " | ".join(f"Kind::{kind}" for kind in no_forms(table))
    fields = [f"Kind::{form.name} => &{form.chapter}::{constant(form.name)}," for form in table.true_forms()]
    choices = table.choices.values()
    variants = [f"Choice::{choice.name} => &{choice.chapter}::{constant(choice.name)}_VARIANTS," for choice in choices]
    words = [f"Words::{name} => &{chapter}::{constant(name)}_WORDS," for name, (chapter, _) in table.words.items()]
    lines = [
        "//! The tables of all chapters: the fields of a form, the forms of a choice and the words of a list.",
        "",
        "ghost use Rattle.std.specs.Prelude.{◌≡◌, map};",
        "ghost use Rattle.fast_check_read.specs.schema.Rows.{field_row, variant_row, word_row};",
        "ghost use Rattle.fast_check_read.specs.schema.Schema.{fields_of, variants_of, words_of};",
        "",
        "use crate::schema::form::{Choice, Field, Named, Variant, Words};",
        f"use crate::schema::{{{chapters}}};",
        "use fast_check_tree_syntax::Kind;",
    ]
    doc = "The fields of a form, in the order of its node's parts. "
    doc += "A kind that is no form (a leaf, a list, a mark) has none."
    lines += lookup_call(doc, "fields", "kind: Kind", "Field", "field", fields + [f"{none} => &[],"])
    doc = "The forms that a choice is between."
    lines += lookup_call(doc, "variants", "choice: Choice", "Variant", "variant", variants)
    doc = "The words of a list, with their texts."
    return lines + lookup_call(doc, "words", "list: Words", "Named", "word", words)


def lookup_call(doc, name, given, row, rows, arms):
    asked = given.split(":")[0]
    lines = [
        "",
        f"/// {doc}",
        f"pub fn {name}({given}) -> &'static [{row}]",
        f"    ensures {{ map {rows}_row result.now ≡ {name}_of {asked} }}",
        "{",
        f"    match {asked} {{",
    ]
    return lines + [f"        {arm}" for arm in arms] + ["    }", "}"]


def schema_definitions(table):
    """`specs/Schema.antt`: the same as definitions."""
    base = "use Rattle.fast_check_read.specs."
    lines = [
        "-- The tables: which fields a form has, which forms a choice is between, which words a list has.",
        "use Rattle.std.specs.Prelude.{List, []}",
        "use Rattle.fast_check_tree_syntax.specs.declared.kind.Kind.{Kind}",
        "use Rattle.fast_check_tree_syntax.specs.declared.kind.Kind.TheVariants as kinds",
        base + "declared.schema.form.Choice.{Choice}",
        base + "declared.schema.form.Choice.TheVariants as choices",
        base + "declared.schema.form.Words.{Words}",
        base + "declared.schema.form.Words.TheVariants as lists",
        base + "schema.Rows.{FieldRow, VariantRow, WordRow, field_table, variant_table, word_table}",
    ]
    lines += [f"{base}declared.schema.{chapter.name}.TheConstants as {chapter.name}" for chapter in table.chapters]
    lines += [
        "",
        "-- the fields of a form, in the order of its node's parts: a leaf, a list and a mark have none",
        "abbrev pub fields_of : Kind → List FieldRow",
    ]
    for form in table.true_forms():
        lines.append(f"fields_of kinds.{form.name} = field_table {form.chapter}.{constant(form.name)}")
    lines += [f"fields_of kinds.{kind} = []" for kind in no_forms(table)]
    lines += ["", "-- the forms that a choice is between", "abbrev pub variants_of : Choice → List VariantRow"]
    for choice in table.choices.values():
        rows = f"variant_table {choice.chapter}.{constant(choice.name)}_VARIANTS"
        lines.append(f"variants_of choices.{choice.name} = {rows}")
    lines += ["", "-- the words of a list", "abbrev pub words_of : Words → List WordRow"]
    for name, (chapter, _) in table.words.items():
        lines.append(f"words_of lists.{name} = word_table {chapter}.{constant(name)}_WORDS")
    return lines


def written_orders(table):
    """For each kind the places of its fields in the order of their names."""
    forms = {form.name: form for form in table.true_forms()}
    lines = []
    for kind in all_kinds(table):
        fields = forms[kind].fields if kind in forms else []
        places = sorted(range(len(fields)), key=lambda place: fields[place].name.encode())
        lines.append(f"    &[{', '.join(map(str, places))}], // {kind}")
    return lines


def write_schema(table, out):
    base = "crates/fast_check_read"
    out.whole("crates/fast_check_tree_syntax/src/kind.rt", kind_code(table))
    for chapter in table.chapters:
        out.whole(f"{base}/src/schema/{chapter.name}.rt", schema_chapter(table, chapter))
    out.between(f"{base}/src/schema/form.rt", "pub enum Choice {", "}", [f"    {name}," for name in table.choices])
    out.between(f"{base}/src/schema/form.rt", "pub enum Words {", "}", [f"    {name}," for name in table.words])
    orders = written_orders(table)
    head = "static WRITTEN_ORDERS: [&[usize]; %d] = ["
    first = "/// The order of each kind, in the order of the kinds."
    out.between(f"{base}/src/schema/order.rt", first, None, [head % len(orders)] + orders + ["];"])
    out.whole(f"{base}/src/schema/tables.rt", schema_tables(table))
    out.whole(f"{base}/specs/schema/Schema.antt", schema_definitions(table))
