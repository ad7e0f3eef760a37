"""What imports, exports and default exports are in a skeleton, by rules of its own. `Skeleton` of `skeletons` has the rest."""
from urllib.parse import urlsplit

from bench.oracle.class_skeletons import range_of
from bench.oracle.nodes import variant


def range_of_specifier(specifier):
    """The range of a specifier: its own, but for a default export's, which has none beside its name's."""
    kind, node = variant(specifier)
    return node["exported"]["span"] if kind == "Default" and "exported" in node else node["span"]


def range_of_default(decl):
    kind, node = variant(decl)
    return node[{"Class": "class", "Fn": "function"}[kind]]["span"] if kind in ("Class", "Fn") else node["span"]


def relative(base, target):
    """The text that leads from one URL to another, or None where they are of different schemes or hosts."""
    base, target = urlsplit(base), urlsplit(target)
    if (base.scheme, base.netloc) != (target.scheme, target.netloc):
        return None
    *here, own = base.path.split("/")
    *there, name = target.path.split("/")
    while here and there and here[0] == there[0]:
        here, there = here[1:], there[1:]
    steps = [".."] * len(here) + there
    path = "/".join(steps + [name]) if steps or name else "/"
    if not steps and own == name:
        path = ""
    return path + (f"?{target.query}" if target.query else "") + (f"#{target.fragment}" if target.fragment else "")


def sources_of(items):
    """What the items of a skeleton are made of: the sources of imports, and of exports of other modules."""
    found = []
    for item in items:
        kind, node = variant(item.get("ModuleDecl", {"": {}}))
        if kind in ("Import", "ExportNamed", "ExportAll") and node["src"] is not None:
            src = node["src"]
            found.append({"specifier": src["value"], "range": src["span"], "is_export": kind != "Import", "type_only": node["type_only"]})
    return found


class Modules:
    """The part of a skeleton that makes imports, exports and default exports."""

    def module_item(self, kind, node):
        """An item that is no statement and no export of a declaration, or None where it goes."""
        if kind in ("Import", "ExportNamed"):
            node = self.with_specifiers(node)
        elif kind == "ExportAll":
            node = dict(node, src=self.source(node["src"])) if node["span"] in self.ranges else None
        elif kind == "TsImportEquals":
            node = self.imported_name(node)
        elif kind == "ExportDefaultExpr":
            node = self.default_value(node)
        elif kind == "ExportDefaultDecl":
            node = self.default_decl(node) if node["span"] in self.ranges else None
        else:
            self.fault({"TsExportAssignment": "unsupported-ts-export-assignment", "TsNamespaceExport": "unsupported-ts-namespace-export"}[kind], node["span"])
            node = None
        return node and {"ModuleDecl": {kind: node}}

    def with_specifiers(self, node):
        specifiers = [each for each in node["specifiers"] if range_of_specifier(each) in self.ranges]
        return dict(node, specifiers=specifiers, src=self.source(node["src"])) if specifiers else None

    def source(self, src):
        """A source, by the text that leads to where it is resolved."""
        if src is None or not src["value"].startswith("."):
            return src
        target = self.resolved.get(src["value"])
        text = target and relative(self.specifier, target)
        if text is None:
            return src
        return dict(src, value=text if text.startswith("../") else "./" + text, raw=None)

    def imported_name(self, node):
        if "TsExternalModuleRef" in node["module_ref"]:
            self.fault("unsupported-require", node["span"])
            return None
        return node if node["span"] in self.ranges else None

    def default_value(self, node):
        if node["span"] not in self.ranges and range_of(node["expr"]) not in self.ranges:
            return None
        left = self.left(node["expr"])
        if left is None:
            self.fault("unsupported-default-export-expr", node["span"])
        return left and dict(node, expr=left)

    def default_decl(self, node):
        kind, decl = variant(node["decl"])
        if kind == "Class":
            decl = dict(decl, **{"class": self.class_(decl["class"], False)})
        elif kind == "Fn" and not self.is_ambient:
            place = decl["ident"]["span"] if decl["ident"] else decl["function"]["span"]
            decl = dict(decl, function=self.function(decl["function"], place, "Method", node["span"] in self.impls))
        return dict(node, decl={kind: decl})

    def namespace(self, node, place):
        """A namespace with what is public of the items in its innermost block."""
        if node["global"]:
            self.fault("unsupported-global-module", node["span"])
            return None
        if "Str" in node["id"] or node["body"] is None:
            self.fault("unsupported-ambient-module", variant(node["id"])[1]["span"])
            return None
        if place not in self.ranges:
            return None
        outside, self.is_ambient = self.is_ambient, self.is_ambient or node["declare"]
        made = dict(node, body=self.body_of(node["body"]))
        self.is_ambient = outside
        return {"TsModule": made}

    def body_of(self, body):
        kind, node = variant(body)
        inside = self.body_of(node["body"]) if kind == "TsNamespaceDecl" else self.items_of(node["body"])
        return {kind: dict(node, body=inside)}

    def using(self, node, place):
        """No skeleton has what `using` declares."""
        if place in self.ranges or any(decl["span"] in self.ranges for decl in node["decls"]):
            self.fault("unsupported-using", (node["decls"] or [node])[0]["span"])
