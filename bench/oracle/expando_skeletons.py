"""What assignments that are statements are in a skeleton, by rules of its own. `Skeleton` of `skeletons` has the rest."""
from bench.oracle.class_skeletons import range_of
from bench.oracle.nodes import new, variant
from bench.oracle.trees import DUMMY


def name_of(text):
    return {"span": DUMMY, "ctxt": 0, "sym": text, "optional": False}


def identifiers(node):
    """The identifiers of a tree with scope numbers, in order of the text."""
    if isinstance(node, list):
        return [found for each in node for found in identifiers(each)]
    if not isinstance(node, dict):
        return []
    if "sym" in node and "ctxt" in node:
        return [node]
    return [found for each in node.values() for found in identifiers(each)]


def target_of(node):
    """The target of an assignment of the form `object.name = value`, or None."""
    kind, target = variant(variant(node["left"])[1]) if "Simple" in node["left"] else ("", None)
    is_form = node["op"] == "=" and kind == "Member" and "Ident" in target["obj"] and "Ident" in target["prop"]
    return target if is_form else None


class Expandos:
    """The part of a skeleton that tests assignments and makes the namespaces for the properties that they declare.

    `exports` has the names that objects export, and `keyworded` the objects that stand behind `export`, both by names with scope numbers."""

    def assignment(self, node, properties):
        if node["span"] not in self.ranges:
            return
        value = self.left(node["right"], range_of(node["right"]))
        target = target_of(node)
        if target is None:
            return
        obj, name = variant(target["obj"])[1], variant(target["prop"])[1]["sym"]
        key = (obj["sym"], obj["ctxt"])
        if value is not None:
            bound = {"Ident": {"id": name_of(name), "type_ann": None}}
            properties.setdefault(key, []).append({"span": node["span"], "name": bound, "init": value, "definite": False})
        elif name not in self.exports.get(key, ()):
            self.fault("missing-explicit-type", target["span"])

    def namespace_of(self, key, decls):
        """`namespace name { export var decls; }`, behind what conflicts of it."""
        for decl in decls:
            last = {}
            for found in identifiers(decl["init"]):
                if found["ctxt"] == key[1] and found["sym"] in self.exports.get(key, ()):
                    last[found["sym"]] = found["span"]
            for name, place in last.items():
                self.fault("unsupported-expando-property", place, key[0], name)
        variables = {"Var": {"span": DUMMY, "ctxt": 0, "kind": "Var", "declare": False, "decls": decls}}
        block = {"TsModuleBlock": {"span": DUMMY, "body": [{"ModuleDecl": new("ExportDecl", decl=variables)}]}}
        decl = new("TsModule", declare=False, id={"Ident": name_of(key[0])}, body=block, **{"global": False, "namespace": True})
        return {"ModuleDecl": new("ExportDecl", decl=decl)} if key in self.keyworded else {"Stmt": {"Decl": decl}}
