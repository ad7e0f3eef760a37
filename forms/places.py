"""The law of the places, the places that definitions by forms look into, the forms by their names, and the page."""
from layout import WIDTH, camel, fill, imports
from schema import LEAF_FORMS, no_forms
from table import LEAVES


def places(table):
    """`specs/Fields.antt` of the law: the name that JSON has for each field, and the definition that reads it."""
    by_name = lambda file: file.name
    files = [file for crate in table.form_crates() for file in sorted(table.files_of(crate), key=by_name)]
    lines = [
        "-- The fields of each form, in the order of its node's parts: the name that JSON has for a field,",
        "-- and the definition that reads it.",
        "use Rattle.std.specs.Prelude.{List, [], ◌∷◌}",
        "use Rattle.fast_check_tree_syntax.specs.declared.kind.Kind.{Kind}",
        "use Rattle.fast_check_tree_syntax.specs.declared.kind.Kind.TheVariants as kinds",
        "use Rattle.fast_check_json.specs.Reading.{Field, tree, range, scope, flag, text}",
    ]
    lines += [f"use Rattle.fast_check_{file.crate}.specs.{camel(file.name)} as {file.name}" for file in files]
    lines += [
        "",
        "-- a leaf and a list have no fields, and a mark has none that JSON shows",
        "abbrev pub fields_of_form : Kind → List Field",
    ]
    for form in table.true_forms():
        lines += places_of(form)
    return lines + [f"fields_of_form kinds.{kind} = []" for kind in no_forms(table)]


def places_of(form):
    head = f"fields_of_form kinds.{form.name} ="
    read = [f'{field.leaf or "tree"} "{field.name}" {form.file}.{form.name}-{field.name}' for field in form.fields]
    parts = [part + " ∷" for part in read] + ["[]"]
    line = " ".join([head] + parts)
    return [line] if len(line) <= WIDTH else [head] + fill(parts, 4, WIDTH)


def named_places(table):
    """`specs/Places.antt` of swc's helpers: the places that the section `places` names, each with its proof."""
    read = {"text": "text_of", "scope": "context_of"}
    lines = [
        "-- The places of the parts that a definition by forms looks into, named by the fields that stand there.",
        "use Rattle.std.specs.Prelude.{refl}",
        "use Rattle.fast_check_tree_syntax.specs.Shape.{text_of, context_of}",
        "use Rattle.fast_check_tree_helpers.specs.PlaceOf.{PlaceOf, PlaceAs}",
    ]
    for crate in table.form_crates():
        for file in sorted(table.files_of(crate), key=lambda file: file.name):
            names = [f"{form.name}-{field.name}" for form, field, _ in table.places if form.file == file.name]
            lines += imports(f"Rattle.fast_check_{crate}.specs.{camel(file.name)}", names, WIDTH) if names else []
    for form, field, place in table.places:
        name = f"{form.name}-{field.name}"
        kind = f"PlaceAs {read[field.leaf]}" if field.leaf else "PlaceOf"
        lines += ["", f"abbrev pub at-{name} : {kind} {name}", f"at-{name} = record {{ place = {place}; reads = λ t. refl }}"]
    return lines


def write_places(table, out):
    out.whole("crates/fast_check_json/specs/Fields.antt", places(table))
    out.whole("crates/fast_check_tree_helpers/specs/Places.antt", named_places(table))


def write_names(table, out):
    """The re-exports of the tree, and the forms and choices by their names."""
    names = sorted([form.name for form in table.forms.values()] + list(table.choices) + ["range_of_node"])
    lines = [f"    pub use fast_check_tree_forms::{name};" for name in names]
    out.between("crates/fast_check_tree/src/lib.rt", "pub mod forms {", "}", lines)
    path = "crates/fast_check_cases/src/forms/names.rt"
    kinds = [f"    Kind::{form.name}," for form in table.true_forms()]
    choices = [f"    Choice::{name}," for name in table.choices]
    plain = [f"    {form}," for form in LEAF_FORMS.values()]
    plain += [f"    Form::Word(Words::{name})," for name in table.words]
    for doc, name, row, rows in [
        ("/// All forms.", "KINDS", "Kind", kinds),
        ("/// All choices.", "CHOICES", "Choice", choices),
        ("/// What stands in a place by itself.", "PLAIN", "Form", plain),
    ]:
        out.between(path, doc, "];", [f"static {name}: [{row}; {len(rows)}] = ["] + rows)


def page(table):
    """The tables of docs/FORMATS.md."""
    lines = []
    for chapter in table.chapters:
        lines += ["", f"#### {chapter.title}", "", "| Form | Fields |", "|---|---|"]
        for form in table.true_forms():
            if form.chapter == chapter.name:
                lines.append(f"| `{form.name}` | " + ", ".join(page_field(field) for field in form.fields) + " |")
        lines += ["", "| Choice | Variants |", "|---|---|"]
        for choice in table.choices.values():
            if choice.chapter == chapter.name:
                variants = ", ".join(page_variant(table, *pair) for pair in choice.variants)
                lines.append(f"| `{choice.name}` | {variants} |")
        words = [(name, words) for name, (place, words) in table.words.items() if place == chapter.name]
        lines += ["", "| Words | |", "|---|---|"] if words else []
        lines += [f"| `{name}` | " + ", ".join(f"`{word}`" for word in list) + " |" for name, list in words]
    return lines + [""]


def page_field(field):
    if field.name == "span" or field.type == "scope":
        return f"`{field.name}`"
    type = field.type if field.type in LEAVES else f"`{field.type}`"
    kind = {"": "{}", "?": "{} or null", "*": "list of {}", "?*": "list of {} or null", "*?": "(list of {}) or null"}
    return f"`{field.name}`: " + kind[field.count].format(type)


def page_variant(table, variant, content):
    if content in table.forms and table.forms[content].mark:
        content = table.forms[content].fields[0].type
    return f"`{variant}`" if variant == content else f"`{variant}({content})`"


def write_page(table, out):
    first = "<!-- forms/forms.txt says what stands from here -->"
    out.between("docs/FORMATS.md", first, "<!-- to here -->", page(table))
