"""The ranges that are handed in for a case: what is public of its items, and what is an implementation behind overloads."""
from bench.oracle.class_skeletons import range_of
from bench.oracle.module_skeletons import range_of_default, range_of_specifier
from bench.oracle.nodes import variant


def ranges_of_item(item, by=None, hidden=()):
    """The ranges by which an item is public. `by` names another one: `own` of an exported declaration, `value` of a default export, `statement`
    of `using`, `export` of an exported `using`, `whole` of an import or an export of names, and a number that of a declarator. The specifiers and
    declarators at the places `hidden` are left out."""
    kind, node = variant(item)
    if kind == "ModuleDecl":
        kind, node = variant(node)
        if kind == "ExportDecl":
            return ranges_of_decl(node["decl"], None if by == "own" else node["span"], by, hidden)
        if "specifiers" in node and by != "whole":
            return [range_of_specifier(each) for place, each in enumerate(node["specifiers"]) if place not in hidden]
        return [range_of(node["expr"]) if by == "value" else node["span"]]
    if "Assign" in node.get("Expr", {}).get("expr", {}):
        return [node["Expr"]["expr"]["Assign"]["span"]]
    return ranges_of_decl(node["Decl"], None, by, hidden) if "Decl" in node else []


def ranges_of_decl(decl, export, by, hidden):
    kind, node = variant(decl)
    if kind == "Using" and by in ("statement", "export"):
        return [export if by == "export" else node["span"]]
    if isinstance(by, int):
        return [node["decls"][by]["span"]]
    if kind in ("Var", "Using"):
        return [declarator["span"] for place, declarator in enumerate(node["decls"]) if place not in hidden]
    return [export or range_of_default(decl)]


def items_inside(item):
    """The items of a namespace, exported or not, or none."""
    kind, node = variant(item)
    decl = node.get("ExportDecl", {}).get("decl", {}) if kind == "ModuleDecl" else node.get("Decl", {})
    body = decl.get("TsModule", {}).get("body")
    while body is not None and "TsNamespaceDecl" in body:
        body = body["TsNamespaceDecl"]["body"]
    return body["TsModuleBlock"]["body"] if body is not None else []


def ranges_inside(item, path, private):
    """The ranges of the items of a namespace, and of those inside of these, but for those whose places lead to `private` ones."""
    found = []
    for place, inner in enumerate(items_inside(item)):
        here = path + (place,)
        if here not in private:
            found += ranges_of_item(inner)
        found += ranges_inside(inner, here, private)
    return found


def public_ranges(case, places, own_ranges=False):
    """The ranges of the items at these places."""
    by, hidden = case.more.get("by", {}), case.more.get("hidden", {})
    found = []
    for place in places:
        found += ranges_of_item(case.items[place], "own" if own_ranges else by.get(place), hidden.get(place, ()))
    return found


def ranges_within(case):
    """The ranges of all items inside of namespaces, but for those at `private_inside`, by the places of the items that lead to them."""
    private = case.more.get("private_inside", ())
    return [span for place, item in enumerate(case.items) for span in ranges_inside(item, (place,), private)]


def class_of(item):
    (_, export), = item["ModuleDecl"].items()
    return export["decl"]["Class"]["class"]


def ranges_of_members(case):
    """The ranges of the members of classes that are implementations with overloads, by the places of their items and their own."""
    found = []
    for place, at in case.more.get("members", []):
        (_, member), = class_of(case.items[place])["body"][at].items()
        found.append(member["span"])
    return found
