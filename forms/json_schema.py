"""The inputs and answers of the program as a JSON Schema, whose trees are those of the table."""
import json

PATH = "tools/schemas/program.json"

TEXT, FLAG, NUMBER = {"type": "string"}, {"type": "boolean"}, {"type": "integer", "minimum": 0}
LEAVES = {"flag": FLAG, "scope": NUMBER, "text": TEXT, "range": {"$ref": "#/definitions/Range"}}


def ref(name):
    return {"$ref": f"#/definitions/{name}"}


def list_of(items):
    return {"type": "array", "items": items}


def tuple_of(*items):
    return {"type": "array", "items": list(items), "minItems": len(items), "maxItems": len(items)}


def or_null(schema):
    return {"anyOf": [schema, {"type": "null"}]}


def object_of(wanted, others=None):
    """An object that has to have the members `wanted`, and may have `others`."""
    return {"type": "object", "properties": {**wanted, **(others or {})}, **({"required": list(wanted)} if wanted else {})}


def one_of(**variants):
    """An object with one of the members."""
    return {"oneOf": [{**object_of({name: schema}), "additionalProperties": False} for name, schema in variants.items()]}


COUNTS = {"": lambda it: it, "?": or_null, "*": list_of, "?*": lambda it: list_of(or_null(it)), "*?": lambda it: or_null(list_of(it))}


def tree_schema(table, type):
    """What stands in JSON for a form, a choice or a leaf. A mark is not there."""
    if type in LEAVES:
        return LEAVES[type]
    form = table.forms.get(type)
    return tree_schema(table, form.fields[0].type) if form is not None and form.mark else ref(type)


def form_schema(table, form):
    from typescript import may_be_left_out
    members = {field.name: COUNTS[field.count](tree_schema(table, field.type)) for field in form.fields}
    left_out = {field.name for field in form.fields if field.name == "span" or may_be_left_out(field)}
    wanted = {name: schema for name, schema in members.items() if name not in left_out}
    return {"description": form.doc, **object_of(wanted, {name: members[name] for name in members if name in left_out})}


def trees(table):
    found = {form.name: form_schema(table, form) for form in table.true_forms()}
    for choice in table.choices.values():
        found[choice.name] = one_of(**{name: tree_schema(table, content) for name, content in choice.variants})
    for name, (_, words) in table.words.items():
        found[name] = {"enum": list(words)}
    return found


MEDIA_TYPES = ["TypeScript", "Mts", "Cts", "Tsx", "Dts", "Dmts", "Dcts", "JavaScript", "Mjs", "Cjs", "Jsx", "Unknown"]
MEDIA_TYPE = {"enum": MEDIA_TYPES}
IDENTIFIER = tuple_of(TEXT, NUMBER)
PATH_BELOW = list_of(TEXT)
PAIRS = list_of(tuple_of(TEXT, TEXT))
RANGES = list_of(ref("Range"))
COMMENT_LIST = list_of(tuple_of(NUMBER, list_of(object_of({"kind": {"enum": ["Line", "Block"]}, "text": TEXT}, {"span": ref("Range")}))))
TABLES = {"symbols": list_of(ref("Symbol")), "swc_ids": list_of(tuple_of(IDENTIFIER, NUMBER)), "re_export_all_nodes": list_of(tuple_of(ref("Range"), TEXT)), "resolved_exports": PAIRS}
HASHED = object_of({}, {"source_hash": or_null(NUMBER)})
NODE_FLAGS = ["is_class", "is_member", "is_function", "is_ts_namespace", "is_default_class_expr", "is_plain_class_decl", "has_export_keyword"]

OTHERS = {
    "Range": {"description": "Where it begins and ends, as swc's positions.", **tuple_of(NUMBER, NUMBER)},
    "Comments": object_of({}, {"leading": COMMENT_LIST, "trailing": COMMENT_LIST}),
    "Source": object_of({"media_type": MEDIA_TYPE, "text": TEXT, "program": ref("Program"), "comments": ref("Comments")}, {"unresolved_context": NUMBER}),
    "EsModule": object_of({"specifier": TEXT, "source": ref("Source"), "module_symbol": NUMBER}, TABLES),
    "JsonModule": object_of({"specifier": TEXT, "module_symbol": NUMBER}, TABLES),
    "Symbol": object_of({"id": NUMBER}, {
        "parent_id": or_null(NUMBER), "is_private_member": FLAG, "maybe_name": or_null(TEXT), "qualified_name": or_null(TEXT),
        "exports": list_of(tuple_of(TEXT, NUMBER)), "members": list_of(NUMBER), "decls": list_of(ref("Declaration")),
    }),
    "Declaration": object_of({"kind": ref("DeclarationKind")}, {"range": ref("Range"), **{name: FLAG for name in ("value", "type_", "has_overloads", "has_body")}}),
    "DeclarationKind": one_of(
        Target=IDENTIFIER, QualifiedTarget=tuple_of(IDENTIFIER, PATH_BELOW),
        FileRef=object_of({"specifier": TEXT, "name": {"anyOf": [one_of(Name=TEXT), {"const": "Star"}]}}), Definition=or_null(ref("SymbolNode")),
    ),
    "SymbolNode": object_of({}, {**{name: FLAG for name in NODE_FLAGS}, "deps": list_of(tuple_of(ref("Dep"), {"enum": ["Value", "Type_", "Both"]}))}),
    "Dep": one_of(Id=IDENTIFIER, QualifiedId=tuple_of(IDENTIFIER, PATH_BELOW), ImportType=tuple_of(TEXT, PATH_BELOW)),
    "Graph": object_of({}, {
        "modules": list_of(tuple_of(TEXT, {"anyOf": [
            one_of(Js=object_of({"media_type": MEDIA_TYPE}, {"has_types_dependency": FLAG, "source_hash": or_null(NUMBER)}), Json=HASHED, Wasm=HASHED), {"enum": ["Npm", "Node", "External"]},
        ]})),
        "resolutions": list_of(tuple_of(TEXT, TEXT, TEXT)), "packages": list_of(tuple_of(TEXT, PAIRS)),
    }),
    "WorkspaceMember": object_of({"name": TEXT, "base": TEXT}, {"version": or_null(TEXT), "exports": PAIRS}),
    "TransformInput": object_of({"module": ref("EsModule"), "graph": ref("Graph")}, {"ranges": RANGES, "impls": RANGES, "first": FLAG}),
    "BuildInput": object_of({"graph": ref("Graph"), "provider": object_of({"fallback": TEXT}, {"packages": PAIRS})}, {
        "modules": list_of(tuple_of(TEXT, one_of(Esm=ref("EsModule"), Json=ref("JsonModule")))), "aliases": PAIRS,
        "workspace_members": list_of(ref("WorkspaceMember")), "pending": list_of(TEXT), "first": FLAG,
    }),
    "PairInput": object_of({"graph": ref("Graph"), "a": ref("EsModule"), "b": ref("EsModule")}, {"ranges_a": RANGES, "impls_a": RANGES, "ranges_b": RANGES, "impls_b": RANGES, "first": FLAG}),
    "Diagnostic": object_of({
        "code": TEXT, "docs_url": or_null(TEXT), "hint": or_null(TEXT), "info": list_of(TEXT), "level": {"enum": ["Error", "Warning"]}, "message": TEXT,
        "range": or_null(ref("Range")), "specifier": TEXT,
    }),
    "Skeleton": object_of({
        "comments": ref("Comments"), "program": ref("Module"),
        "module_info": object_of({"sources": list_of(object_of({"is_export": FLAG, "range": ref("Range"), "specifier": TEXT, "type_only": FLAG}))}),
    }),
    "TransformAnswer": one_of(Ok=ref("Skeleton"), Err=list_of(ref("Diagnostic"))),
    "BuildAnswer": list_of(tuple_of(TEXT, ref("TransformAnswer"))),
    "PairAnswer": tuple_of(ref("TransformAnswer"), ref("TransformAnswer")),
}


def write_json_schema(table, out):
    schema = {
        "$schema": "http://json-schema.org/draft-07/schema#", "$comment": "Written by forms/write.py from forms/forms.txt.", "$id": "program.json",
        "title": "Inputs and answers of fast-check", "anyOf": [ref(name) for name in ("TransformInput", "BuildInput", "PairInput")], "definitions": {**OTHERS, **trees(table)},
    }
    text = json.dumps(schema, indent=1)
    out.files[PATH] = text + "\n"
    out.counts[PATH] = text.count("\n") + 1
