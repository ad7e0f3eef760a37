"""Names as code writes them, and lines as `rt fmt` lays them out."""
import re

# how wide a line of definitions is at most, and one of a proof
WIDTH, PROOF_WIDTH = 120, 140


def snake(name):
    """`TsTplLitType` as `ts_tpl_lit_type`."""
    name = re.sub(r"([A-Z]+)([A-Z][a-z])", r"\1_\2", name)
    return re.sub(r"([a-z0-9])([A-Z])", r"\1_\2", name).lower()


def constant(name):
    """`TsTplLitType` as `TS_TPL_LIT_TYPE`."""
    return snake(name).upper()


def camel(name):
    """`module_decls` as `ModuleDecls`."""
    return "".join(word.capitalize() for word in name.split("_"))


def fill(words, indent, width, first=None):
    """The words in lines of at most this width, or of `first` where it is the first line."""
    lines, limit = [" " * indent + words[0]], first or width
    for word in words[1:]:
        if len(lines[-1]) + 1 + len(word) > limit:
            lines.append(" " * indent + word)
            limit = width
        else:
            lines[-1] += " " + word
    return lines


def brackets(head, items, tail, indent, small, width=100):
    """`head item, item tail` in a line where the items take at most `small` columns, else each item by itself.

    An item is a text, or a function that gives its lines at an indent. The lines begin at `indent`, and leave it out.
    """
    laid = [[item] if isinstance(item, str) else item(indent + 4) for item in items]
    if all(len(item) == 1 for item in laid):
        inside = ", ".join(item[0] for item in laid)
        line = head + inside + tail
        if len(inside) <= small and indent + len(line) <= width:
            return [line]
    lines = [head.rstrip()]
    for item in laid:
        item[-1] += ","
        lines += [" " * 4 + line for line in item]
    return lines + [tail.lstrip()]


def indented(lines, indent):
    return [" " * indent + line if line else line for line in lines]


def use_list(head, names, tail):
    """A `use` of names, in a line if it fits, else filled."""
    line = head + ", ".join(names) + tail
    if len(line) < 100:
        return [line]
    return [head] + fill([name + "," for name in names], 4, 99) + [tail]


def ghost_use(module, names):
    """A `ghost use` of definitions, in a line if it fits, else a line for each."""
    line = f"ghost use {module}.{{{', '.join(names)}}};"
    if len(line) <= 100:
        return [line]
    return [f"ghost use {module}.{{"] + [f"  {name}," for name in names] + ["};"]


def imports(module, names, width):
    """A `use` of these names, in as many lines as it takes."""
    lines, head = [], f"use {module}.{{"
    for name in names:
        if lines and len(lines[-1]) + len(", ") + len(name) + len("}") <= width:
            lines[-1] += f", {name}"
        else:
            lines.append(head + name)
    return [line + "}" for line in lines]
