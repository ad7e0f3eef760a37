"""Trees of the items that only modules have: imports, exports and default exports, and of interfaces; a constructor for each form, and their layouts.

They are made and laid out as those of `trees` are.
"""
import json

from bench.oracle.trees import LAYOUTS, ann, braces, form, ident, ident_name, lay, lay_as, lay_class, lay_function, many, one, ref, text, when


def item(variant, **fields):
    """An item that is no statement."""
    return {"ModuleDecl": {variant: form(**fields)}}


# ---- names and sources


def export_name(name):
    """A name that is imported or exported; one in quotes is a text."""
    return {"Str": text(name[1:-1])} if name.startswith('"') else {"Ident": ident(name)}


def source(value):
    """The literal of a source, by its text, or as it is; None stays None."""
    return text(value) if isinstance(value, str) else value


# ---- imports


def named_import(name, local=None, is_type=False):
    imported = None if local is None else export_name(name)
    return {"Named": form(local=ident(local or name), imported=imported, is_type_only=is_type)}


def default_import(local):
    return {"Default": form(local=ident(local))}


def star_import(local):
    return {"Namespace": form(local=ident(local))}


def import_(src, *specifiers, is_type=False, with_=None, phase="evaluation"):
    specifiers = [named_import(each) if isinstance(each, str) else each for each in specifiers]
    return item("Import", specifiers=specifiers, src=source(src), type_only=is_type, **{"with": with_}, phase=phase)


def entity(path):
    """`A`, or `A.B.C`."""
    first, *others = path.split(".")
    made = {"Ident": ident(first)}
    for name in others:
        made = {"TsQualifiedName": form(left=made, right=ident_name(name))}
    return made


def alias(name, path, is_export=False, is_type=False):
    """`import name = path`."""
    return item("TsImportEquals", is_export=is_export, is_type_only=is_type, id=ident(name), module_ref={"TsEntityName": entity(path)})


def require(name, src, is_export=False, is_type=False):
    """`import name = require("src")`."""
    return item("TsImportEquals", is_export=is_export, is_type_only=is_type, id=ident(name), module_ref={"TsExternalModuleRef": form(expr=text(src))})


# ---- exports


def named_export(name, exported=None, is_type=False):
    return {"Named": form(orig=export_name(name), exported=exported and export_name(exported), is_type_only=is_type)}


def star_export(name):
    """`* as name`."""
    return {"Namespace": form(name=export_name(name))}


def default_export(name):
    """`export name from`."""
    return {"Default": {"exported": ident(name)}}


def export(*specifiers, src=None, is_type=False, with_=None):
    specifiers = [named_export(each) if isinstance(each, str) else each for each in specifiers]
    return item("ExportNamed", specifiers=specifiers, src=source(src), type_only=is_type, **{"with": with_})


def export_all(src, is_type=False, with_=None):
    return item("ExportAll", src=source(src), type_only=is_type, **{"with": with_})


def export_assignment(value):
    """`export = value`."""
    return item("TsExportAssignment", expr=value)


def namespace_export(name):
    """`export as namespace name`."""
    return item("TsNamespaceExport", id=ident(name))


# ---- default exports


def default_value(value):
    return item("ExportDefaultExpr", expr=value)


def default_decl(decl):
    """The default export of a function, a class or an interface, as the expression or the statement that declares it."""
    return item("ExportDefaultDecl", decl=decl)


def interface(name, *members):
    made = form(id=ident(name), declare=False, type_params=None, extends=[], body=form(body=list(members)))
    return {"Decl": {"TsInterface": made}}


def default_interface(name, *members):
    return default_decl({"TsInterfaceDecl": interface(name, *members)["Decl"]["TsInterface"]})


def property_signature(name, written):
    return {"TsPropertySignature": form(key=ref(name), computed=False, readonly=False, optional=False, type_ann=ann(written))}



# ---- `using`


def using(*declarators, is_await=False):
    return {"Decl": {"Using": form(is_await=is_await, decls=list(declarators))}}


# ---- namespaces


def body_of(names, items):
    """The block of a namespace's items, behind the names that follow the first one."""
    if not names:
        return {"TsModuleBlock": form(body=list(items))}
    return {"TsNamespaceDecl": form(declare=False, id=ident(names[0]), body=body_of(names[1:], items), **{"global": False})}


def namespace(path, *items, declare=False, word="namespace"):
    """`namespace A.B { items }`."""
    first, *names = path.split(".")
    return {"Decl": {"TsModule": form(declare=declare, id={"Ident": ident(first)}, body=body_of(names, items),
                                      **{"global": False, "namespace": word == "namespace"})}}


def ambient_module(name, *items, body=True):
    """`declare module "name" { items }`, or one without a body; a name without quotes is an identifier."""
    id_ = {"Str": text(name[1:-1])} if name.startswith('"') else {"Ident": ident(name)}
    return {"Decl": {"TsModule": form(declare=True, id=id_, body=body_of([], items) if body else None, **{"global": False, "namespace": False})}}


def global_module(*items, declare=True):
    """`declare global { items }`."""
    return {"Decl": {"TsModule": form(declare=declare, id={"Ident": ident("global")}, body=body_of([], items), **{"global": True, "namespace": False})}}


# ---- layouts


def specifiers(braced, others):
    """The specifiers in their order; those of the named kind are written in braces."""
    def piece(source, node):
        written = node["specifiers"]
        named = [each for each in written if "Named" in each]
        for place, each in enumerate(each for each in written if "Named" not in each):
            source.write(", " if place else "")
            lay_as(source, others, each)
        if named or not written:
            source.write(", " if len(named) < len(written) else "")
            lay(source, [braces("named", braced, ", ")], {"named": named})
    return piece


def clause(source, node):
    if node["specifiers"]:
        specifiers("import_specifier", "import_specifier")(source, node)
        source.write(" from ")


def from_source(source, node):
    if node["src"]:
        source.write(" from ")
        lay_as(source, "source", node["src"])


def lay_phase(source, node):
    source.write("" if node["phase"] == "evaluation" else node["phase"] + " ")


def lay_default_class(source, node):
    lay_class(source, node, "abstract " * node["class"]["is_abstract"])


def lay_default_function(source, node):
    lay_function(source, node["function"], node["ident"])


def lay_module_word(source, node):
    source.write("" if node["global"] else "namespace " if node["namespace"] else "module ")


def lay_module_body(source, node):
    """A block behind a blank, the next name behind a dot, or an end."""
    body = node["body"]
    source.write(";" if body is None else " " if "TsModuleBlock" in body else ".")
    if body is not None:
        lay_as(source, "namespace_body", body)


ATTRIBUTES = [when("with", " with "), one("with", "attributes")]
EXPORTED = [when("is_export", "export "), "import ", when("is_type_only", "type "), one("id", "ident"), " = ", one("module_ref", "module_ref"), ";"]
INTERFACE = ["interface ", one("id", "ident"), " ", one("body", "interface_body")]
LAYOUTS.update({
    "source": [lambda source, node: source.write(node["raw"] or json.dumps(node["value"]))],
    "attributes": [braces("props", "prop", ", ")],
    "export_name": {"Ident": "ident", "Str": "source"},
    "import_specifier": {"Named": [when("is_type_only", "type "), one("imported", "export_name"), when("imported", " as "), one("local", "ident")],
                         "Default": [one("local", "ident")], "Namespace": ["* as ", one("local", "ident")]},
    "export_specifier": {"Named": [when("is_type_only", "type "), one("orig", "export_name"), when("exported", " as "), one("exported", "export_name")],
                         "Default": [one("exported", "ident")], "Namespace": ["* as ", one("name", "export_name")]},
    "module_ref": {"TsEntityName": "entity", "TsExternalModuleRef": ["require(", one("expr", "source"), ")"]},
    "default_decl": {"Class": lay_default_class, "Fn": lay_default_function, "TsInterfaceDecl": INTERFACE},
    "interface_body": [braces("body", "type_element", " ")],
    "type_element": {"TsPropertySignature": [one("key", "expr"), one("type_ann", "ann"), ";"],
                     "TsMethodSignature": [one("key", "expr"), "(", many("params", "pattern"), ")", one("type_ann", "ann"), ";"]},
})
LAYOUTS["entity"]["TsQualifiedName"] = [one("left", "entity"), ".", one("right", "ident_name")]
LAYOUTS["decl"]["Using"] = [when("is_await", "await "), "using ", many("decls", "declarator"), ";"]
LAYOUTS["decl"]["TsInterface"] = INTERFACE
LAYOUTS["decl"]["TsModule"] = [when("declare", "declare "), lay_module_word, one("id", "export_name"), lay_module_body]
LAYOUTS["namespace_body"]["TsNamespaceDecl"] = [one("id", "ident"), lay_module_body]
LAYOUTS["module_decl"].update({
    "Import": ["import ", when("type_only", "type "), lay_phase, clause, one("src", "source"), *ATTRIBUTES, ";"],
    "ExportNamed": ["export ", when("type_only", "type "), specifiers("export_specifier", "export_specifier"), from_source, *ATTRIBUTES, ";"],
    "ExportAll": ["export ", when("type_only", "type "), "* from ", one("src", "source"), *ATTRIBUTES, ";"],
    "TsImportEquals": EXPORTED,
    "TsExportAssignment": ["export = ", one("expr", "expr"), ";"],
    "TsNamespaceExport": ["export as namespace ", one("id", "ident"), ";"],
    "ExportDefaultExpr": ["export default ", one("expr", "expr"), ";"],
    "ExportDefaultDecl": ["export default ", one("decl", "default_decl")],
})
