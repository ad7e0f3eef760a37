"""Runs of what may be left out of a request and of what is refused: JSON, trees, tables and graphs. Most stand in `changed/transform.txt`."""
import json

from bench.cases.changed_requests import changed, sections
from bench.cases.runs import (
    DOCS, Module, NEVER, NO_TABLES, SPECIFIER, answered, first_module, ident, keyword, module_answer, program, refused, request, title,
)
from bench.oracle.diagnostics import diagnostic
from bench.oracle.trees import DUMMY

PROGRAM = "module.source.program.Module"


def defaults():
    title("what may be left out: options, flags, lists, spans and scope numbers; other members are passed over")
    module = Module().variable("let", "a", "1")
    request = {"more": {"deep": [1, -2, "x"]}, "graph": {}, "module": {"specifier": SPECIFIER, **NO_TABLES, "more": None,
               "source": {"media_type": "TypeScript", "text": "", "more": [], "comments": {},
               "program": {"Module": {"body": [{"Stmt": {"Decl": {"Var": {"kind": "Let",
                   "decls": [{"more": 1, "name": {"Ident": {"id": {"sym": "a"}}}, "init": {"Lit": {"Num": {"raw": "1"}}}}]}}}}]}}}}, "ranges": [[0, 0]]}
    ann = {"span": DUMMY, "type_ann": keyword("TsNumberKeyword")}
    decl = {"span": DUMMY, "name": {"Ident": {"id": ident(DUMMY, "a"), "type_ann": ann}}, "init": NEVER, "definite": False}
    var = {"Stmt": {"Decl": {"Var": {"span": DUMMY, "ctxt": 0, "kind": "Let", "declare": False, "decls": [decl]}}}}
    answered("defaults", request, {"Ok": module_answer({"span": DUMMY, "body": [var], "shebang": None})})
    source = {"media_type": "TypeScript", "text": "", "program": {"Module": {}}, "comments": {}}
    answered("a_module_of_nothing", {"graph": {}, "module": {"specifier": SPECIFIER, "source": source, **NO_TABLES}},
        {"Ok": module_answer({"span": DUMMY, "body": [], "shebang": None})})
    text = json.dumps(first_module().request())
    doubled = text[:-1] + ', "ranges": [[34, 39]]}'
    answered("the_last_of_two_members_counts", doubled.encode(), rest())
    with_shebang = changed(first_module().request(), (f"{PROGRAM}.shebang", "#!/usr/bin/env deno"))
    answer = first_module().answer()
    answer["Ok"]["program"]["shebang"] = "#!/usr/bin/env deno"
    answered("shebang", with_shebang, answer)
    limit = changed(first_module().request(), (f"{PROGRAM}.span", [4294967295, 4294967295]))
    answer = first_module().answer()
    answer["Ok"]["program"]["span"] = [4294967295, 4294967295]
    answered("the_largest_position", limit, answer)


def rest():
    """The answer of the first module without its first item."""
    module = first_module()
    module.skeleton = module.skeleton[1:]
    return module.answer()


def untyped():
    """The answer of the first module whose first value is a name."""
    module = first_module()
    declarator = module.skeleton[0]["ModuleDecl"]["ExportDecl"]["decl"]["Var"]["decls"][0]
    declarator["name"]["Ident"]["type_ann"], declarator["init"] = None, {"Ident": ident(DUMMY, "y")}
    return module.answer()


def expando():
    """The answer of the expando's module where its property is public."""
    name = {"span": DUMMY, "ctxt": 0, "sym": "x", "optional": False}
    value = {"Lit": {"Num": {"span": [7, 8], "raw": "1"}}}
    declarator = {"span": [1, 8], "name": {"Ident": {"id": name, "type_ann": None}}, "init": value, "definite": False}
    variables = {"Var": {"span": DUMMY, "ctxt": 0, "kind": "Var", "declare": False, "decls": [declarator]}}
    block = {"TsModuleBlock": {"span": DUMMY, "body": [{"ModuleDecl": {"ExportDecl": {"span": DUMMY, "decl": variables}}}]}}
    namespace = {"span": DUMMY, "declare": False, "global": False, "namespace": True, "id": {"Ident": dict(name, sym="q")}, "body": block}
    return {"Ok": module_answer(program([{"Stmt": {"Decl": {"TsModule": namespace}}}], "q.x = 1;"))}


ANSWERS = {"first": lambda: first_module().answer(), "rest": rest, "untyped": untyped, "expando": expando,
           "nothing": lambda: {"Ok": module_answer(program([], "q.x = 1;"))}}


def refusals():
    title("no JSON")
    refused("truncated", b'{"graph":', "not-json")
    refused("no_bytes", b"", "not-json")
    refused("not_utf8", b'{"module": "\xff"}', "not-json")
    refused("two_values", b"{} {}", "not-json")
    refused("nested_127", (b"[" * 127) + (b"]" * 127))
    refused("nested_128", (b"[" * 128) + (b"]" * 128), "not-json")
    bases = {None: first_module().request(), "expando": expando_request(), "nothing": {"graph": {}}}
    for number, (words, lines) in enumerate(sections("transform.txt")):
        title(words)
        if number == 0:
            refused("array", b"[]")
            refused("null", b"null")
        for name, word, base, changes in lines:
            run(name, changed(bases[base], *changes), word)
        if number == 1:
            refused("an_exponent_anywhere", json.dumps(changed(bases[None], ("more", 7))).replace(": 7}", ": 1e3}").encode())


def run(name, content, word):
    """A run that is refused by a word, or answered by an answer of this name or by one fault at the range of no text."""
    if word in ANSWERS:
        answered(name, content, ANSWERS[word]())
    elif word.startswith("unsupported-"):
        answered(name, content, {"Err": [diagnostic((word, DUMMY, None, None), SPECIFIER, DOCS)]})
    else:
        refused(name, content, word)


def with_tables(request, **tables):
    request["module"].update(tables)
    return request


def expando_request(*ranges, **tables):
    """`q.x = 1;`, and nothing else, with these public ranges. The scope number of `q` is 2."""
    target = {"Member": {"span": [1, 4], "obj": {"Ident": ident([1, 2], "q", 2)}, "prop": {"Ident": {"span": [3, 4], "sym": "x"}}}}
    assignment = {"Assign": {"span": [1, 8], "op": "=", "left": {"Simple": target}, "right": {"Lit": {"Num": {"span": [7, 8], "raw": "1"}}}}}
    return with_tables(request("q.x = 1;", [{"Stmt": {"Expr": {"span": [1, 9], "expr": assignment}}}], list(ranges)), **tables)
