"""Runs of `fast-check build` on hostile tables, in the shapes that `bench/check/shapes.py` measures and in some of its own: rings, long
paths, names that come twice, and modules that lead back to themselves. The trees are empty, so that each module with something public is answered by an
empty skeleton: what is shown is that the call ends, which modules are answered, and which fault of the tables is reported."""
import os

from bench.cases import hostile_shapes
from bench.check import tables

def skeleton(leading=(), trailing=()):
    """An empty skeleton with these comments."""
    return {"comments": {"leading": list(leading), "trailing": list(trailing)}, "module_info": {"sources": []},
            "program": {"body": [], "shebang": None, "span": [1, 1]}}


def a_ring_of_re_exports_of_all(n):
    """Modules that each export all of the next one, in few bytes."""
    urls = [f"http://a/{i}" for i in range(n)]
    source = {"media_type": "Mts", "text": "", "program": {"Module": {"span": [1, 1]}}, "comments": {}}
    modules = [[url, {"Esm": {"specifier": url, "source": source, "module_symbol": 0, "symbols": [{"id": 0}], "re_export_all_nodes": [[[1, 9], "n"]]}}]
               for url in urls]
    graph = {"modules": [[url, {"Js": {"media_type": "Mts"}}] for url in urls], "resolutions": [[url, "n", urls[(i + 1) % n]] for i, url in enumerate(urls)],
             "packages": [["@p/p@1.0.0", [[".", "./0"]]]]}
    provider = {"fallback": "http://a/", "packages": [["@p/p@1.0.0", "http://a/"]]}
    return {"graph": graph, "modules": modules, "provider": provider, "pending": ["@p/p@1.0.0"]}, sorted(urls)


def exports_of_a_symbol(n):
    """A namespace of so many names, in few bytes."""
    inside = [{"id": i, "parent_id": 1, "decls": [{"value": True, "kind": {"Definition": None}}]} for i in range(2, n + 2)]
    return tables.single([tables.symbol(1, tables.definition(is_ts_namespace=True), exports=[[f"s{i}", i] for i in range(2, n + 2)]), *inside], [["s1", 1]],
                         ids=[[["s1", 1], 1]])


def a_long_name(size):
    """A name of so many bytes, which the module exports, and by which another one asks for it."""
    url = [tables.url(0), tables.url(1)]
    asks = tables.module(url[0], [tables.symbol(1, tables.file_ref(url[1], "a" * size))], [["s1", 1]])
    gives = tables.module(url[1], [tables.symbol(1, tables.definition())], [["a" * size, 1]], resolved_exports=[])
    return tables.request(asks, gives), url


def a_class_among_its_own_members(n):
    """A class that lists itself, a member that lists its class, and two aliases of each other."""
    symbols = [tables.symbol(1, tables.definition(is_class=True), members=[1, 2] * n),
               tables.symbol(2, tables.definition(is_member=True), parent=1, members=[1]),
               tables.symbol(3, tables.target("s4")), tables.symbol(4, tables.target("s3"))]
    return tables.single(symbols, [["s1", 1], ["s3", 3]])


def every_name_twice(n):
    """Members of one name, and paths to it and to one that no member has."""
    same = [tables.symbol(i, tables.definition(is_member=True), parent=1, name="m") for i in range(2, n + 2)]
    asks = [tables.symbol(n + i, tables.part("s1", "prototype", "m")) for i in range(2, 4)]
    return tables.single([tables.symbol(1, tables.definition(is_class=True), members=list(range(2, n + 2))), *same, *asks],
                         [[f"s{n + i}", n + i] for i in range(2, 4)])


def builds_of_a_version():
    """Packages whose versions differ in what follows a `+` alone. They are ordered by number where it is one, then by text, behind the one without."""
    builds = ["", "+1", "+2", "+10", "+a", "+b"]
    urls = [f"{tables.HOST}{place}/0.ts" for place in range(len(builds))]
    modules = [tables.module(each, [tables.symbol(1, tables.definition())], [["s1", 1]]) for each in urls]
    bases = [[f"@p/p0@1.0.0{build}", f"{tables.HOST}{place}/"] for place, build in enumerate(builds)]
    return tables.request(*modules, versions=bases[1:], pending=[nv for nv, _ in reversed(bases)]), urls


def slashes_at_the_end():
    """Three modules whose URLs differ in slashes at the end, of which each exports all of the next."""
    urls = [tables.url(0) + "/" * place for place in range(3)]
    own = [tables.symbol(1, tables.definition())]
    first, second = (tables.module(urls[place], [], [], again=[urls[place + 1]]) for place in (0, 1))
    return tables.request(first, second, tables.module(urls[2], own, [["s1", 1]])), urls


def a_qualified_name_without_names():
    """A reference into another module by a qualified name that has no names behind its first."""
    asks = [tables.symbol(1, tables.part("f")), tables.symbol(2, tables.file_ref(tables.url(1), "N"), name="f")]
    gives = [tables.symbol(1, tables.definition(), name="N")]
    return tables.request(tables.module(tables.url(0), asks, [["s1", 1]]), tables.module(tables.url(1), gives, [["N", 1]]))


def documented(text):
    return [1, [{"kind": "Block", "span": [1, 9], "text": f"* {text} "}]]


def keys_with_other_values():
    """Each list of pairs has a key twice, and leads on to the second module, to the member of the workspace or to a comment by what stands with the last."""
    at, other, lost, called, member = tables.url(0), tables.url(1), tables.url(9), tables.url("called"), "file:///w/0.ts"
    alias, reference = tables.symbol(3, tables.target("s1")), tables.file_ref("./a", "s1")
    first = tables.module(at, [tables.symbol(1, tables.definition()), tables.symbol(2, tables.definition()), tables.symbol(1, reference), alias],
                          [["s1", 2], ["s1", 3]], ids=[[["s1", 1], 2], [["s1", 1], 1]], resolved_exports=[["s1", lost], ["s1", at]])
    second = tables.module(other, [tables.symbol(1, tables.definition())], [["s1", 1]])
    second[1]["Esm"]["source"] = {**tables.NO_TEXT, "comments": {side: [documented("gone"), documented(side)] for side in ("leading", "trailing")}}
    third = tables.module(member, [tables.symbol(1, tables.definition())], [["s1", 1]])
    made = tables.request(tables.module(at, [], []), first, second, third, aliases=[[called, lost], [called, other]],
                          workspace_members=[{"name": "@w/w", "base": "file:///w/", "exports": [[".", "./9.ts"], [".", "./0.ts"]]}])
    made["graph"] = {"modules": [[at, {"Js": {"media_type": "JavaScript"}}],
                                 *([each, {"Js": {"media_type": "TypeScript"}}] for each in (at, other, called, member))],
                     "resolutions": [[at, "./a", lost], [at, "./a", called]],
                     "packages": [["@p/p0@1.0.0", [[".", "./9.ts"]]], ["@p/p0@1.0.0", [[".", "./9.ts"], [".", "./0.ts"]]]]}
    made["provider"]["packages"] = [["@p/p0@1.0.0", tables.HOST + "9/"], ["@p/p0@1.0.0", tables.HOST + "0/"]]
    made["pending"].append("@w/w@0.0.0")
    return made, {at: skeleton(), other: skeleton([documented("leading")], [documented("trailing")]), member: skeleton()}


def stated():
    """The lines of `hostile.txt`: the name of a run, or a `-` where the shape is measured alone; its shape and the shape's size; and what is answered."""
    with open(os.path.join(os.path.dirname(os.path.abspath(__file__)), "hostile.txt")) as lines:
        for line in lines:
            if not line.startswith("#"):
                (name, shape, *size), answer = (part.split() for part in line.partition(": ")[::2])
                yield name, shape, [int(word) if word.isdigit() else word for word in size], answer


def urls_of(words):
    """The modules that are answered: `1` and `m` stand for 1.ts and m.ts of the package, `a1..9` for a1.ts to a9.ts, and `a*9` for aaaaaaaaa.ts."""
    for word in words:
        first, dots, last = word.partition("..")
        if dots:
            letters = first.rstrip("0123456789")
            yield from (tables.url(f"{letters}{place}") for place in range(int(first.removeprefix(letters)), int(last) + 1))
        elif "*" in word:
            yield tables.url(word[0] * int(word[2:]))
        elif word != "none":
            yield word if ":" in word else tables.url(word)


def runs():
    """Each run: its name, its request, and the answers, or the word of its refusal. Shapes of this file may answer both."""
    for name, shape, size, words in stated():
        made = (getattr(hostile_shapes, shape, None) or globals()[shape])(*size)
        if words[:1] == ["table-fault"]:
            yield name, made, " ".join(words)
        elif name != "-":
            made, shown = (made, sorted(urls_of(words))) if words else made
            shown = shown if isinstance(shown, dict) else dict.fromkeys(shown, skeleton())
            yield name, made, [[url, {"Ok": each}] for url, each in shown.items()]
