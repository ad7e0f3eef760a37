"""What the stored runs share: a module of variables, requests and answers, and where a run is written."""
import json
import os
import sys

from bench.oracle.diagnostics import diagnostic
from bench.oracle.module_skeletons import sources_of
from bench.oracle.programs import TOP
from bench.oracle.trees import DUMMY, Source

CRATE = os.path.join(TOP, "crates/fast_check_vectors")
DATA = os.path.join(CRATE, "data")
EXAMPLES = os.path.join(TOP, "examples")
SPECIFIER = "file:///p/mod.ts"
NO_GRAPH = {"modules": [], "resolutions": [], "packages": []}
# the tables of a module of which no symbol is asked
NO_TABLES = {"module_symbol": 0, "symbols": [{"id": 0}]}

# ---- sources: a text that grows, with the tree of what is written


def ident(span, name, ctxt=0):
    return {"span": span, "ctxt": ctxt, "sym": name, "optional": False}


def keyword(word, span=DUMMY):
    return {"TsKeywordType": {"span": span, "kind": word}}


NEVER = {"TsAs": {"span": DUMMY, "expr": {"Object": {"span": DUMMY, "props": []}}, "type_ann": keyword("TsNeverKeyword")}}


def valued(kind, span, value):
    """A text or a number as a value, and the type that it shows."""
    is_text = value.startswith('"')
    literal = {"span": span, "value": json.loads(value), "raw": value} if is_text else {"span": span, "raw": value}
    type_ = {"TsLitType": {"span": DUMMY, "lit": {"Str" if is_text else "Number": literal}}}
    return {"Lit": {"Str" if is_text else "Num": literal}}, type_ if kind == "const" else keyword("TsStringKeyword" if is_text else "TsNumberKeyword")


class Module:
    """A module of exported variables, which have a text or a number as their value, its skeleton and its public ranges."""

    def __init__(self):
        self.source = Source()
        self.body, self.skeleton, self.faults, self.ranges = [], [], [], []

    def variable(self, kind, name, value=None):
        """Adds a variable. One without a value has no type."""
        source = self.source
        if self.body:
            source.write(" ")
        start, statement_start, declarator_start = source.here(), source.write("export ")[1], source.write(kind + " ")[1]
        name, init, shown = ident(source.write(name), name), None, None
        if value is None:
            self.faults.append(name["span"])
        else:
            source.write(" = ")
            init, shown = valued(kind, source.write(value), value)
        declarator = {"span": [declarator_start, source.here()], "name": {"Ident": {"id": name, "type_ann": None}}, "init": init, "definite": False}
        source.write(";")
        end = source.here()
        typed = {"Ident": {"id": name, "type_ann": {"span": DUMMY, "type_ann": shown}}}
        for made, decl in (self.body, declarator), (self.skeleton, dict(declarator, name=typed, init=NEVER)):
            var = {"Var": {"span": [statement_start, end], "ctxt": 0, "kind": kind.capitalize(), "declare": False, "decls": [decl]}}
            made.append({"ModuleDecl": {"ExportDecl": {"span": [start, end], "decl": var}}})
        self.ranges.append(declarator["span"])
        return self

    def request(self, **more):
        return request(self.source.text, self.body, self.ranges, **more)

    def answer(self, first=False):
        if self.faults:
            return {"Err": [missing_type(span) for span in (self.faults[:1] if first else self.faults)]}
        return {"Ok": module_answer(program(self.skeleton, self.source.text))}


def program(body, text):
    return {"span": [1, len(text.encode()) + 1], "body": body, "shebang": None}


def request(text, body, ranges, media_type="TypeScript", **more):
    source = {"media_type": media_type, "text": text, "program": {"Module": program(body, text)},
              "comments": {"leading": [], "trailing": []}, "unresolved_context": 1}
    module = {"specifier": SPECIFIER, "source": source, **NO_TABLES}
    return dict({"graph": NO_GRAPH, "module": module, "ranges": ranges, "impls": [], "first": False}, **more)


def module_answer(program):
    return {"module_info": {"sources": sources_of(program["body"])}, "program": program, "comments": {"leading": [], "trailing": []}}


def missing_type(span):
    return diagnostic(("missing-explicit-type", span), SPECIFIER, DOCS)


# the page of a diagnostic, as the program's definition of it says
with open(os.path.join(TOP, "crates/fast_check_tables_diagnostics/specs/Report.antt")) as file:
    DOCS = file.read().split('docs_url = Some (codes "')[1].split('"')[0]

# ---- the bench

CASES, STDOUT = [], []
# all files that are written, by their paths
FILES = {}
# for each request of a transform the answer with all its faults, and the source text
RUNS = {}


def line(value):
    return json.dumps(value, sort_keys=True, separators=(",", ":"), ensure_ascii=False) + "\n"


def title(text):
    CASES.append(f"# {text}\n")
    STDOUT.append(f"# {text}\n")


def case(words, status, output, is_told=True):
    CASES.append(words + "\n")
    told = "" if is_told else "the line was not taken\n"
    STDOUT.append(f"$ fast-check {words}\n{output}status {status}\n{told}")


def put(name, content, folder=DATA):
    path = os.path.join(folder, name)
    if path in FILES:
        sys.exit(f"{name} is written twice")
    FILES[path] = content if isinstance(content, bytes) else json.dumps(content, separators=(",", ":"), ensure_ascii=False).encode()


def put_example(name, stored, answers):
    """A stored run as an example."""
    put(f"{name}.json", FILES[os.path.join(DATA, f"{stored}.json")], EXAMPLES)
    put(f"{name}.answer.json", line(answers).encode(), EXAMPLES)


def refused(name, content, word="bad-form"):
    put(f"{name}.json", content)
    case(f"transform {name}.json", 2, f"error: input refused: {word}\n")


def answered(name, content, answer):
    put(f"{name}.json", content)
    if isinstance(content, dict) and not content.get("first"):
        RUNS[name] = answer, content["module"]["source"]["text"]
    case(f"transform {name}.json", 1 if "Err" in answer else 0, line(answer))


def first_module():
    return Module().variable("const", "x", '"a"').variable("let", "y", "1")
