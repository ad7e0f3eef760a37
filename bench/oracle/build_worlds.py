"""Worlds for `fast-check build`: packages whose modules are trees, what is asked of them, and what has to be answered.

The symbols of a module are made of its items: variables, functions, classes with their members, interfaces, imports and exports. What is public is
found by `package_rules` and `package_accounts`, and what a module shows by `skeletons`; the answer is put together here as docs/proofs/rules.md says,
chapters 16 to 18. No output of the program is taken for right.
"""
import sys

from bench.oracle.diagnostics import diagnostic
from bench.oracle.module_skeletons import range_of_default, range_of_specifier, sources_of
from bench.oracle.nodes import variant
from bench.oracle.package_accounts import Closure, mismatch, without_nested
from bench.oracle.package_rules import World as Rules, order_of
from bench.oracle.package_worlds import HOST, nv_of, url_of
from bench.oracle.skeletons import Skeleton
from bench.oracle.trees import FREE, MODULE, lay_items

KINDS = ["unsupported-private-member-reference", "not-found-reference", "unsupported-complex-reference"]


# ---- the symbols of a module


def text_of(name):
    """The text of a name that is imported or exported, or of a key; None where it has none."""
    kind, node = variant(name)
    return node["sym"] if kind == "Ident" else node["value"] if kind == "Str" else None


def references(node, namespace="Value"):
    """What the types of a declaration, and the values that may stay, refer to, as dependencies."""
    if isinstance(node, list):
        for each in node:
            yield from references(each, namespace)
    elif isinstance(node, dict):
        has_type = "left" in node and (variant(node["left"])[1] or {}).get("type_ann")
        for kind, inside in node.items():
            if kind == "right" and has_type:
                continue
            if kind == "TsTypeRef":
                yield from reference_of(inside["type_name"], "Type_")
                yield from references(inside["type_params"])
            elif kind == "super_class" and inside and "Ident" in inside:
                yield from reference_of(inside, "Both")
            elif kind in ("implements", "extends"):
                yield from references(inside, "Type_")
            elif kind == "Ident" and isinstance(inside, dict) and "ctxt" in inside:
                yield from reference_of({kind: inside}, namespace)
            elif kind == "init":
                is_written = (variant(node["name"])[1] or {}).get("type_ann")
                yield from references(None if is_written else inside, namespace)
            elif kind not in ("body", "key", "prop") or isinstance(inside, dict) and "Computed" in inside:
                yield from references(inside, namespace)


def parted(name):
    """The first name of `A.b.c`, and the names below it."""
    path = []
    while "TsQualifiedName" in name:
        path.insert(0, name["TsQualifiedName"]["right"]["sym"])
        name = name["TsQualifiedName"]["left"]
    return [name["Ident"]["sym"], name["Ident"]["ctxt"]], path


def reference_of(name, namespace):
    first, path = parted(name)
    yield [{"QualifiedId": [first, path]}, "Type_"] if path else [{"Id": first}, namespace]


class Symbols:
    """The tables of a module, made of its items."""

    def __init__(self, items, more):
        self.listed, self.ids, self.again, self.more = [{"id": 0, "exports": []}], [], [], more
        for item in items:
            kind, node = variant(item)
            if kind == "ModuleDecl":
                self.module_decl(*variant(node))
            elif "Decl" in node:
                self.declaration(node["Decl"], None)
        bound = {tuple(id) for id, _ in self.ids}
        for symbol in self.listed:
            for decl in symbol.get("decls", []):
                node = decl["kind"].get("Definition") or {}
                if "deps" in node:
                    first = lambda dep: tuple(variant(dep[0])[1] if "Id" in dep[0] else variant(dep[0])[1][0])
                    told = [dep for place, dep in enumerate(node["deps"]) if dep not in node["deps"][:place]]
                    node["deps"] = [dep for dep in told if "ImportType" in dep[0] or first(dep) in bound]

    def symbol(self, name, is_bound=True, parent=0, **more):
        """The symbol of a name, which several declarations may share."""
        known = [each for each in self.listed[1:] if each.get("maybe_name") == name and each["parent_id"] == parent and is_bound]
        if known:
            return known[0]
        made = {"id": len(self.listed), "parent_id": parent, "maybe_name": name, "qualified_name": name, "decls": [], **more}
        self.listed.append(made)
        if is_bound and parent == 0:
            self.ids.append([[name, MODULE], made["id"]])
        return made

    def export(self, name, symbol):
        if [name, symbol["id"]] not in self.listed[0]["exports"]:
            self.listed[0]["exports"].append([name, symbol["id"]])

    def define(self, symbol, span, parts, value=True, type_=False, **flags):
        deps = list(references(parts)) + self.more.get(symbol["qualified_name"], [])
        symbol["decls"].append({"range": span, "value": value, "type_": type_, "kind": {"Definition": {"deps": deps, **flags}}})
        return symbol["decls"]

    def module_decl(self, kind, node):
        if kind == "ExportDecl":
            for symbol in self.declaration(node["decl"], node["span"]):
                self.export(symbol["maybe_name"], symbol)
        elif kind == "Import":
            for each in node["specifiers"]:
                how, specifier = variant(each)
                imported = specifier.get("imported") and text_of(specifier["imported"])
                name = {"Default": {"Name": "default"}, "Namespace": "Star"}.get(how, {"Name": imported or specifier["local"]["sym"]})
                self.alias(self.symbol(specifier["local"]["sym"]), each, node, name)
        elif kind == "ExportNamed":
            for each in node["specifiers"]:
                self.exported_name(each, node)
        elif kind == "ExportAll":
            self.again.append([node["span"], node["src"]["value"]])
        elif kind == "TsImportEquals":
            self.entity(node)
        elif kind in ("ExportDefaultDecl", "ExportDefaultExpr"):
            symbol = self.symbol("default", is_bound=False)
            self.export("default", symbol)
            self.default(symbol, node)

    def alias(self, symbol, specifier, node, name):
        kind = {"FileRef": {"specifier": node["src"]["value"], "name": name}}
        symbol["decls"].append({"range": range_of_specifier(specifier), "value": True, "type_": True, "kind": kind})

    def entity(self, node):
        """`import name = A`, or a part of another name, as `import name = A.b.c`."""
        symbol, (first, path) = self.symbol(node["id"]["sym"]), parted(node["module_ref"]["TsEntityName"])
        kind = {"QualifiedTarget": [first, path]} if path else {"Target": first}
        symbol["decls"].append({"range": node["span"], "value": True, "type_": True, "kind": kind})
        if node["is_export"]:
            self.export(symbol["maybe_name"], symbol)

    def exported_name(self, specifier, node):
        how, inside = variant(specifier)
        name = text_of(inside["exported"] or inside["orig"]) if how == "Named" else text_of(inside["name"]) if how == "Namespace" else inside["exported"]["sym"]
        symbol = self.symbol(name, is_bound=False)
        self.export(name, symbol)
        if node["src"]:
            self.alias(symbol, specifier, node, {"Name": text_of(inside["orig"])} if how == "Named" else "Star" if how == "Namespace" else {"Name": "default"})
        else:
            target = {"Target": [text_of(inside["orig"]), MODULE]}
            symbol["decls"].append({"range": inside["span"], "value": True, "type_": True, "kind": target})

    def default(self, symbol, node):
        if "expr" in node:
            self.define(symbol, node["span"], node["expr"])
            return
        kind, decl = variant(node["decl"])
        if kind == "Class":
            self.class_(symbol, node["span"], decl["class"], is_default_class_expr=True)
        else:
            self.define(symbol, node["span"], decl, is_function=kind == "Fn", type_=kind != "Fn")

    def declaration(self, decl, export):
        kind, node = variant(decl)
        if kind == "Var":
            return [self.variable(each, export) for each in node["decls"]]
        symbol = self.symbol((node.get("ident") or node.get("id"))["sym"])
        span, is_exported = export or range_of_default(decl), {"has_export_keyword": export is not None}
        if kind == "Fn":
            decls = self.define(symbol, span, node["function"], is_function=True, **is_exported)
            decls[-1]["has_body"] = node["function"]["body"] is not None
            for each in decls:
                each["has_overloads"] = len(decls) > 1
        elif kind == "Class":
            self.class_(symbol, span, node["class"], is_class=True, is_plain_class_decl=node["class"]["type_params"] is None, **is_exported)
        else:
            parts = {name: inside for name, inside in node.items() if name != "body"}
            self.define(symbol, span, [parts, node.get("body", {}).get("body")], value=False, type_=True, **is_exported)
        return [symbol]

    def variable(self, declarator, export):
        symbol = self.symbol(declarator["name"]["Ident"]["id"]["sym"])
        self.define(symbol, declarator["span"], {"name": declarator["name"], "init": declarator["init"]}, has_export_keyword=export is not None)
        return symbol

    def class_(self, symbol, span, node, **flags):
        heads = {name: inside for name, inside in node.items() if name != "body"}
        inside = [{name: part for name, part in variant(each)[1].items()} for each in node["body"] if "Constructor" in each or "TsIndexSignature" in each]
        self.define(symbol, span, [heads, inside], type_=True, **flags)
        symbol["members"] = []
        for each in node["body"]:
            kind, member = variant(each)
            name = text_of(member["key"]) if kind in ("Method", "ClassProp") else None
            if name is None:
                continue
            is_private = member["accessibility"] == "Private"
            made = self.symbol(name, parent=symbol["id"], is_private_member=is_private)
            made["qualified_name"] = f"{symbol['qualified_name']}{'.' if member['is_static'] else '.prototype.'}{name}"
            self.define(made, member["span"], member, type_=True, is_member=True)
            if member["is_static"]:
                symbol.setdefault("exports", []).append([name, made["id"]])
            else:
                symbol["members"].append(made["id"])

    def tables(self):
        return {"module_symbol": 0, "symbols": self.listed, "swc_ids": self.ids, "re_export_all_nodes": self.again,
                "resolved_exports": []}


# ---- modules and worlds


class Module:
    """A module by its items, which stands at `word` below the host, or at a URL. `deps` has further dependencies of symbols, `answers` the exported
    names that other modules answer, `resolved` what texts resolve to that lead nowhere by themselves, and `read` the items and the text where they are read."""

    def __init__(self, word, *items, media_type="TypeScript", deps=None, answers=(), resolved=None, read=None):
        self.url, self.media_type = url_of(word), media_type
        self.items, self.text = read or lay_items(list(items))
        self.tables = Symbols(self.items, deps or {}).tables()
        own = [[name, self.url] for name, _ in self.tables["symbols"][0]["exports"]]
        self.tables["resolved_exports"] = own + [[name, url_of(other)] for name, other in answers]
        self.resolved = {text: url_of(url) for text, url in (resolved or {}).items()}

    def parts(self):
        return {"Esm": {"specifier": self.url, **self.tables, "source": {
            "media_type": self.media_type, "text": self.text, "program": {"Module": self.program(self.items)},
            "comments": {"leading": [], "trailing": []}, "unresolved_context": FREE}}}

    def program(self, items):
        return {"span": [1, len(self.text.encode()) + 1], "body": items, "shebang": None}

    def rules(self):
        return {"specifier": self.url, "text": self.text, **self.tables}

    def node(self):
        return {"Js": {"media_type": self.media_type}}

    def skeleton(self, ranges, impls):
        plain = {(symbol["maybe_name"], MODULE) for symbol in self.tables["symbols"] for decl in symbol.get("decls", [])
                 if (decl["kind"].get("Definition") or {}).get("is_plain_class_decl")}
        return Skeleton(self.items, ranges, impls, self.media_type, specifier=self.url, resolved=self.resolved, plain_classes=plain)


class JsonModule:
    """A module of JSON: one symbol, which is exported as default, and no tree."""

    def __init__(self, word):
        self.url = url_of(word)
        symbols = [{"id": 0, "exports": [["default", 1]]},
                   {"id": 1, "parent_id": 0, "decls": [{"range": [1, 3], "value": True, "kind": {"Definition": None}}]}]
        self.tables = {"module_symbol": 0, "symbols": symbols, "re_export_all_nodes": [], "resolved_exports": [["default", self.url]]}
        self.resolved = {}

    def parts(self):
        return {"Json": {"specifier": self.url, **self.tables}}

    def rules(self):
        return {"specifier": self.url, **self.tables}

    def node(self):
        return {"Json": {}}

    def skeleton(self, ranges, impls):
        return None


class World:
    """What is asked: packages by words as `p`, which is @p/p@1.0.0 below the host, with their export texts; and the modules.

    `only` has modules of the graph without tables, by their nodes; `unlisted` packages that the graph knows and the provider does not; `members` those
    of the workspace, as [name, version or None, base, export texts]; `aliases` names that stand for others; `away` modules that the graph lacks."""

    def __init__(self, packages, *modules, pending=("p",), first=False, only=None, unlisted=None, members=(), aliases=None, away=(), listed=None):
        exports = lambda texts: [[text if place else ".", text] for place, text in enumerate(texts)]
        nodes = [[module.url, module.node()] for module in modules if module.url not in map(url_of, away)]
        nodes += [[url_of(word), {"Js": {"media_type": node}} if node == "JavaScript" else node] for word, node in (only or {}).items()]
        known = {**packages, **(unlisted or {})}
        provided = {**{word: url_of(word + "/") for word in packages}, **(listed or {})}
        self.modules, self.first = list(modules), first
        self.parts = {
            "graph": {"modules": nodes, "resolutions": [[module.url, text, url] for module in modules for text, url in module.resolved.items()],
                      "packages": [[nv_of(word), exports(texts)] for word, texts in known.items()]},
            "modules": [[module.url, module.parts()] for module in modules],
            "aliases": [[url_of(name), url_of(other)] for name, other in (aliases or {}).items()],
            "workspace_members": [{"name": name, "version": version, "base": base, "exports": exports(texts)} for name, version, base, texts in members],
            "provider": {"fallback": HOST + "other/", "packages": [[nv_of(word), url] for word, url in provided.items()]},
            "pending": [nv_of(word) for word in pending]}

    def request(self, **more):
        return {**self.parts, "first": self.first, **more}

    # ---- what has to be answered

    def answers(self, pages, without=None):
        """Pairs of a URL and an answer, by all demands that follow; None where an export text does not join. The pages of diagnostics stand at `pages`.

        `without` says of what all demands give whether it is left out, since other demands stand for those that give it: an account has to give exactly
        the rest."""
        rules = Rules(self.rules())
        closure = Closure(rules)
        yields = without_nested(closure.yielded())
        if any(it[0] == "refused" for it in yields):
            return None
        if without:
            yields = {it for it in yields if not without(it)}
            wrong = mismatch(rules, closure, yields, sorted({it[1] for it in yields}))
            if wrong:
                sys.exit(wrong)
        return self.answers_to(yields, pages)

    def rules(self):
        """The world as the finder is asked."""
        return dict(self.parts, modules=[module.rules() for module in self.modules])

    def answers_to(self, yields, pages):
        """The answers where this is found."""
        return [pair for nv in sorted({it[1] for it in yields}, key=order_of)
                for pair in self.package([(it[0], *it[2:]) for it in yields if it[1] == nv], pages)]

    def tried(self, yields, pages):
        """The modules of a package, in order: each URL with its skeleton, if it has a tree, and what is wrong with it."""
        for url in sorted({it[1] for it in yields if it[0] == "module"}):
            of = lambda kind: sorted(it[2:] for it in yields if it[:2] == (kind, url))
            faults = self.found_faults(url, of("fault"), pages)
            module = next((each for each in self.modules if each.url == url), None)
            made = module and module.skeleton([list(it[0]) for it in of("range")], [list(it[0]) for it in of("implementation")])
            if not faults and made:
                faults = [diagnostic(fault, url, pages) for fault in (made.faults[:1] if self.first else made.faults)]
            yield url, made and (module, made), faults

    def package(self, yields, pages):
        entry_points = sorted({it[1] for it in yields if it[0] == "entry"})
        shown, lists = [], []
        for url, made, faults in self.tried(yields, pages):
            lists.append(faults)
            if made:
                module, skeleton = made
                comments = {"leading": [], "trailing": []}
                answer = {"module_info": {"sources": sources_of(skeleton.items)}, "program": module.program(skeleton.items), "comments": comments}
                shown.append([url, {"Ok": answer}])
        if not any(lists):
            return shown
        told = next(filter(None, lists)) if self.first else [fault for faults in lists for fault in faults]
        return [[url, {"Err": told}] for url in entry_points]

    def found_faults(self, url, faults, pages):
        """What the finder found, by its places in the text: what it says of the whole module goes first."""
        made = []
        for place, code, message in faults:
            span = [int(each) for each in place.split()[0].split("-")] if place else None
            order = [*span, KINDS.index(code)] if span else []
            made.append((order, message, diagnostic((code, span), url, pages, message)))
        return [told for _, _, told in sorted(made, key=lambda it: it[:2])]
