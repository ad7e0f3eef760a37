"""The JSON of the tree as TypeScript's types, for the code in tools/typescript that makes and prints it."""

PATH = "tools/typescript/src/tree/forms.d.ts"
LEAVES = {"flag": "boolean", "scope": "number", "text": "string", "range": "Span"}
SHOWN = {"": "{}", "?": "{} | null", "*": "{}[]", "?*": "({} | null)[]", "*?": "{}[] | null"}


def shown_type(table, type):
    """The type of what stands in JSON for a form, a choice or a leaf. A mark is not there."""
    if type in LEAVES:
        return LEAVES[type]
    form = table.forms.get(type)
    return shown_type(table, form.fields[0].type) if form is not None and form.mark else type


def may_be_left_out(field):
    return field.count != "" or field.type in ("flag", "scope") or field.type == "range" and field.name != "span"


def field_line(table, field):
    mark = "?" if may_be_left_out(field) else ""
    return f"  {field.name}{mark}: {SHOWN[field.count].format(shown_type(table, field.type))};"


def form_lines(table, form):
    return [f"/** {form.doc} */", f"export interface {form.name} {{", *(field_line(table, field) for field in form.fields), "}", ""]


def choice_lines(table, choice):
    variants = [f"  {name}: {shown_type(table, content)};" for name, content in choice.variants]
    return [f"export interface {choice.name}Variants {{", *variants, "}", f"export type {choice.name} = OneOf<{choice.name}Variants>;", ""]


def part_lines(table):
    """What a walk over a whole tree meets: the members of all forms and choices, of which each part has some."""
    members = {}
    for form in table.true_forms():
        for field in form.fields:
            members.setdefault(field.name, {})[SHOWN[field.count].format(shown_type(table, field.type))] = None
    for choice in table.choices.values():
        for name, content in choice.variants:
            members.setdefault(name, {})[shown_type(table, content)] = None
    lines = [f"  {name}?: {' | '.join(types)};" for name, types in sorted(members.items())]
    return ["/** Any part of a tree, of which nothing more is known: each has some of these members. */", "export type Part = {", *lines, "};", ""]


def write_types(table, out):
    lines = ["// Written by forms/write.py from forms/forms.txt.", "", "// JSDoc names these types as `forms.Ident`.", "export as namespace forms;", "", "/** A range: where it begins and ends, as swc's positions. */", "export type Span = [start: number, end: number];", ""]
    lines += ["/** An object with one of the members. */", "export type OneOf<V> = { [K in keyof V]: { [L in K]: V[K] } & { [L in Exclude<keyof V, K>]?: undefined } }[keyof V];", ""]
    for form in table.true_forms():
        lines += form_lines(table, form)
    for choice in table.choices.values():
        lines += choice_lines(table, choice)
    lines += part_lines(table)
    for name, (_, words) in table.words.items():
        lines += [f"export type {name} = " + " | ".join(f"'{word}'" for word in words) + ";"]
    out.files[PATH] = "\n".join(lines) + "\n"
    out.counts[PATH] = len(lines)
