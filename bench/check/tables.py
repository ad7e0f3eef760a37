"""Tables, trees and requests of `build` and `transform`, as hostile inputs are put together of them."""

HOST = "https://host.example/"
RANGES = [[1, 9]]
NO_TEXT = {"media_type": "TypeScript", "text": "", "program": {"Module": {"span": [1, 1], "body": []}}, "comments": {}}


def decl(kind, **more):
    return {"range": [1, 9], "value": True, "type_": True, "kind": kind, **more}


def definition(*deps, **flags):
    return decl({"Definition": {"deps": list(deps), **flags}})


def target(name):
    return decl({"Target": [name, 1]})


def part(name, *names):
    return decl({"QualifiedTarget": [[name, 1], list(names)]})


def file_ref(text, name):
    return decl({"FileRef": {"specifier": text, "name": {"Name": name}}})


def import_type(text, *names):
    return [{"ImportType": [text, list(names)]}, "Type_"]


def symbol(id, *decls, parent=0, name=None, **more):
    name = name or f"s{id}"
    return {"id": id, "parent_id": parent, "maybe_name": name, "qualified_name": name, "decls": list(decls), **more}


def module(url, symbols, exports, again=(), ids=None, **more):
    """A module at a URL, with these symbols beside its own, of which those at the top have identifiers."""
    if ids is None:
        ids = [[[each["maybe_name"], 1], each["id"]] for each in symbols if each["parent_id"] == 0]
    return [url, {"Esm": {"specifier": url, "source": NO_TEXT, "module_symbol": 0, "symbols": [{"id": 0, "exports": exports}, *symbols], "swc_ids": ids,
                          "re_export_all_nodes": [[[1, 9], text] for text in again], "resolved_exports": [[name, url] for name, _ in exports], **more}}]


def request(*modules, packages=1, exports=(), versions=(), **more):
    """A request of `build` with these modules, in which each URL resolves to itself."""
    texts = {(url, text) for url, part in modules for text in texts_of(part["Esm"])}
    bases = [[f"@p/p{p}@1.0.0", f"{HOST}{p}/"] for p in range(packages)] + list(versions)
    graph = {"modules": [[url, {"Js": {"media_type": "TypeScript"}}] for url, _ in modules], "resolutions": [[url, text, text] for url, text in sorted(texts)],
             "packages": [[nv, list(exports) or [[".", "./0.ts"]]] for nv, _ in bases]}
    return {"graph": graph,
            "modules": list(modules), "provider": {"fallback": HOST, "packages": bases}, "pending": ["@p/p0@1.0.0"], **more}


def texts_of(tables):
    for _, text in tables["re_export_all_nodes"]:
        yield text
    for each in tables["symbols"]:
        for it in each.get("decls", []):
            if "FileRef" in it["kind"]:
                yield it["kind"]["FileRef"]["specifier"]
            for dep, _ in (it["kind"].get("Definition") or {}).get("deps", []):
                if "ImportType" in dep:
                    yield dep["ImportType"][0]


def url(place, package=0):
    return f"{HOST}{package}/{place}.ts"


def one_name(at):
    return module(at, [symbol(1, definition())], [["s1", 1]])


def single(symbols, exports, **more):
    return request(module(url(0), symbols, exports, **more))


# Trees, whose places count only where they are public.
NOWHERE = [0, 0]


def span(i):
    return [10 * i + 1, 10 * i + 8]


def ident(name):
    return {"span": NOWHERE, "ctxt": 2, "sym": name}


ONE = {"Lit": {"Num": {"span": NOWHERE, "raw": "1"}}}


def assigned(i, name, key):
    """`name.key = 1;` at span(i)."""
    member = {"Member": {"span": NOWHERE, "obj": {"Ident": ident(name)}, "prop": {"Ident": {"span": NOWHERE, "sym": key}}}}
    assign = {"span": span(i), "op": "=", "left": {"Simple": member}, "right": ONE}
    return {"Stmt": {"Expr": {"span": span(i), "expr": {"Assign": assign}}}}


def imported(i, text, name):
    """`import name from "text";` at span(i)."""
    specifier = {"Default": {"span": span(i), "local": ident(name)}}
    return {"ModuleDecl": {"Import": {"span": span(i), "specifiers": [specifier], "src": {"span": NOWHERE, "value": text}, "phase": "evaluation"}}}


def tree_module(body, symbols=(), ids=(), specifier="file:///p/mod.ts"):
    source = {"media_type": "TypeScript", "text": "", "program": {"Module": {"span": [1, 9], "body": body}}, "comments": {}, "unresolved_context": 1}
    return {"specifier": specifier, "source": source, "module_symbol": 0, "symbols": [{"id": 0}, *symbols], "swc_ids": list(ids)}


def transform(body, ranges, symbols=(), ids=(), specifier="file:///p/mod.ts", graph=None):
    """A request of `transform` for a module of these items and symbols, with these ranges public."""
    return {"module": tree_module(body, symbols, ids, specifier), "ranges": list(ranges), "graph": graph or {}}


# A declaration in few bytes.
FEW = {"kind": {"Definition": None}}


def chain_to(n, asked, of, *more):
    """A chain of n modules, each of which asks the next one for its only name and the module `of` for the path that `asked` gives; and these modules more."""

    def at(i):
        deps = ([import_type(url(i + 1), "s1")] if i < n else []) + [import_type(of[0], *asked(i))]
        return module(url(i), [symbol(1, definition(*deps))], [["s1", 1]])

    return request(*map(at, range(1, n + 1)), of, *more, exports=[[".", "./1.ts"]])


def by_name(name):
    return [{"Id": [name, 1]}, "Type_"]


def exports_of(letter, n):
    return [[f"{letter}{i}", i] for i in range(1, n + 1)]


def names_that_ask(asked, n, *symbols):
    """A module of n names, each of which asks for the symbol of this name, and of these symbols."""
    return module(url("m"), [*(symbol(i, definition(by_name(asked)), name=f"a{i}") for i in range(1, n + 1)), *symbols], exports_of("a", n))


def namespace_of_items(n):
    """A namespace N of n items, behind n other symbols."""
    items = [symbol(n + 1 + i, definition(), parent=n + 1, name=f"x{i}") for i in range(1, n + 1)]
    return [symbol(n + 1, definition(is_ts_namespace=True), name="N", exports=[[f"x{i}", n + 1 + i] for i in range(1, n + 1)]), *items]
