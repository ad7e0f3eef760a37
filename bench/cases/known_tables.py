"""Tables of modules that say what is known of objects, and of names behind `new`."""
from bench.oracle.trees import MODULE

OTHER = 7


def symbol(number, name, exports=(), keyword=False):
    kind = {"Definition": {"is_function": True, "has_export_keyword": keyword}}
    return {"id": number, "parent_id": 0, "maybe_name": name, "exports": [[each, number] for each in exports],
            "decls": [{"range": [1, 2], "kind": kind, "value": True}]}


def known(*objects):
    """What is known of objects: each a name, a scope number, the names that it exports, and whether it stands behind `export`."""
    tables = {"symbols": [{"id": 0}] + [symbol(place, name, exports, keyword) for place, (name, _, exports, keyword) in enumerate(objects, 1)],
              "module_symbol": 0, "swc_ids": [[[name, ctxt], place] for place, (name, ctxt, _, _) in enumerate(objects, 1)]}
    return {"tables": tables, "exports": {(name, ctxt): exports for name, ctxt, exports, _ in objects},
            "keyworded": {(name, ctxt) for name, ctxt, _, keyword in objects if keyword}}


# ---- classes


def declared(number, name, *kinds):
    return {"id": number, "parent_id": 0, "maybe_name": name, "decls": [{"range": [1, 2], "kind": kind, "value": True} for kind in kinds]}


def of_class(plain=True, **more):
    return {"Definition": {"is_class": True, "is_plain_class_decl": plain, **more}}


# C and D are classes without type parameters, D behind `export`; G has type parameters, A names C, I is imported, M is an interface and a class, and V
# is a variable
SYMBOLS = [
    {"id": 0}, declared(1, "C", of_class()), declared(2, "D", of_class(has_export_keyword=True)), declared(3, "G", of_class(plain=False)),
    declared(4, "A", {"Target": ["C", MODULE]}), declared(5, "I", {"FileRef": {"specifier": "./a.ts", "name": {"Name": "C"}}}),
    declared(6, "M", {"Definition": {}}, of_class()), declared(7, "V", {"Definition": None})]
CLASSES = {"symbols": SYMBOLS, "module_symbol": 0,
           "swc_ids": [[[text, MODULE], place] for place, text in enumerate(["C", "D", "G", "A", "I", "M", "V"], 1)] + [[["D", OTHER], 3]]}
# tables by the name that a case gives them
TABLES = {"classes": {"tables": CLASSES, "plain_classes": (("C", MODULE), ("D", MODULE), ("M", MODULE))}}
