"""The lines of `fast_check_cases`, and what each must print: forms that are read and printed, or made, and how bodies return.

The forms, choices and words are those of the tables of docs/FORMATS.md, and the values and answers are laid out by this
script alone: the program's own output is nowhere taken for right.
"""
import json
import os
import re

from bench.oracle.programs import TOP
from bench.oracle.trees import (
    Source, block, class_, declarator, fn_stmt, form, free, function, ident, lay_as, lit, name as named, paren, returned, run, stmt, thrown, unshared,
    var_stmt,
)

LEVELS = 24


def tables():
    """The forms with their fields, the choices with their variants, and the words, by name and in order."""
    forms, choices, words, into = {}, {}, {}, None
    for line in open(os.path.join(TOP, "docs/FORMATS.md"), encoding="utf-8"):
        head = re.fullmatch(r"\| (Form|Choice|Words) \|.*\|\n", line)
        row = re.fullmatch(r"\| `(\w+)` \| (.*) \|\n", line)
        if head:
            into = {"Form": forms, "Choice": choices, "Words": words}[head[1]]
        elif not line.startswith("|"):
            into = None
        elif row and into is forms:
            into[row[1]] = [field(text) for text in re.split(r", (?=`)", row[2])]
        elif row and into is choices:
            variants = re.findall(r"`(\w+)(?:\((\w+)\))?`", row[2])
            into[row[1]] = [(name, content or name) for name, content in variants]
        elif row and into is words:
            into[row[1]] = re.findall(r"`(\w+)`", row[2])
    return forms, choices, words


def field(text):
    """A field: its name, what stands there, and how often."""
    name, _, what = text.partition(": ")
    name = name.strip("`")
    if not what:
        return name, {"span": "range", "ctxt": "scope"}[name], "one"
    if what.startswith("(list of "):
        return name, what[9:].split(")")[0].strip("`"), "list or null"
    if what.startswith("list of "):
        item, _, null = what[8:].partition(" or ")
        return name, item.strip("`"), "list of options" if null else "list"
    item, _, null = what.partition(" or ")
    return name, item.strip("`"), "option" if null else "one"


FORMS, CHOICES, WORDS = tables()


def has_default(field):
    return field[2] != "one" or field[1] in ("flag", "scope", "range")


def sample(form, filling, levels=LEVELS):
    """The object of a form. Filled "least", it has no field that has a default; "defaults", it has these too, with their defaults; "full",
    it has something in each."""
    return {
        field[0]: counted(field, filling, levels)
        for field in FORMS[form]
        if filling != "least" or not has_default(field)
    }


def counted(field, filling, levels):
    _, what, count = field
    within = "defaults" if filling == "full" else filling
    if count == "one":
        return one(what, filling, levels)
    if filling != "full":
        return None if count in ("option", "list or null") else []
    if count == "option":
        return one(what, within, levels)
    if count == "list of options":
        return [None, one(what, within, levels)]
    return [one(what, within, levels), one(what, within, levels)]


def one(what, filling, levels):
    within = "defaults" if filling == "full" else filling
    full = filling == "full"
    if what == "flag":
        return full
    if what == "scope":
        return 7 if full else 0
    if what == "text":
        return 'a "text"'
    if what == "range":
        return [3, 9] if full else [0, 0]
    if what in WORDS:
        return WORDS[what][-1]
    if what in FORMS:
        return sample(what, within, levels - 1)
    # a variant in which the choice does not come again
    name, content = CHOICES[what][0 if what == "TsNamespaceBody" else -1]
    return {name: one(content, within, levels - 1)}


def text_of(value):
    return json.dumps(value, sort_keys=True, separators=(",", ":"))


LINES, ANSWERS = [], []


def remark(text):
    LINES.append("# " + text)
    ANSWERS.append("# " + text)


def case(words, answer):
    LINES.append(words)
    ANSWERS.append(answer)


def same(form, value):
    case(f"print {form} {text_of(value)}", text_of(value))


def forms_come_back():
    remark("a form without its defaults prints with them")
    for form in FORMS:
        case(f"print {form} {text_of(sample(form, 'least'))}", text_of(sample(form, "defaults")))
    remark("a form with all its fields prints as it stood")
    for form in FORMS:
        same(form, sample(form, "full"))


def variants_come_back():
    remark("each variant of each choice prints as it stood")
    for choice, variants in CHOICES.items():
        for name, content in variants:
            same(choice, {name: one(content, "defaults", LEVELS)})


# ---- what no transform makes

SPAN, VOID = [1, 3], {"TsKeywordType": {"span": [0, 0], "kind": "TsVoidKeyword"}}
MADE = {
    "Ident": {"span": SPAN, "ctxt": 2, "sym": "text", "optional": False},
    "ts_readonly": {"span": [0, 0], "op": "ReadOnly", "type_ann": VOID}, "ts_tuple_element": {"span": [0, 0], "label": None, "ty": VOID},
}

# forms that have a field of each kind, none and the most fields, and no range or two
OF_EACH_KIND = ["Null", "Ident", "Regex", "ImportDecl", "FnDecl", "VarDecl", "TplElement", "RestPat", "Function", "ClassProp", "TsKeywordType"]


def forms_are_made():
    remark("types that no transform makes, and an identifier of a copied id")
    for name, made in MADE.items():
        case(f"make {name}", text_of(made))
    remark("forms with each kind of field, made of fields that tell their places, and read: those of ranges in brackets, flags are true")
    for form in OF_EACH_KIND:
        case(f"form {form}", " ".join([form] + [place_told(place, field) for place, field in enumerate(FORMS[form])]) + ", as read")
    case("form PatExpr", "PatExpr 0, as read")


def place_told(place, field):
    """What a field says of its place, where a form is made."""
    if field[2] == "one" and field[1] in ("range", "flag", "text"):
        return {"range": f"[{place}]", "flag": "true", "text": "text"}[field[1]]
    return str(place)


# ---- how bodies return


def returns(title, answer, *stmts):
    source, body = Source(), unshared(block(*stmts))
    lay_as(source, "block", body)
    remark(f"{title}: {source.text}")
    case(f"returns {text_of(body)}", answer)


def bodies():
    a, one, bare, empty = free("a"), returned(lit("1")), returned(), stmt("Empty")
    scope = lambda *stmts: stmt("Block", ctxt=0, stmts=list(stmts))
    returns("an empty body", "void")
    returns("a body that throws", "none", thrown(a))
    returns("a return in the other branch", "single", stmt("If", test=a, cons=scope(), alt=scope(one)))
    returns("two returns of nothing", "void", bare, bare)
    returns("the last return has a value", "single", bare, one)
    returns("the first return has a value", "multiple", one, bare)
    caught = lambda handler: None if handler is None else form(param=None, body=block(*handler))
    tried = lambda first, handler, last: stmt("Try", block=block(*first), handler=caught(handler), finalizer=None if last is None else block(*last))
    each = {"Pat": named("x")}
    inside = scope(one)
    for title, holder in [
            ("a block", inside), ("with", stmt("With", obj=a, body=inside)), ("a label", stmt("Labeled", label=ident("l"), body=inside)),
            ("the first branch", stmt("If", test=a, cons=inside, alt=None)), ("the other branch", stmt("If", test=a, cons=empty, alt=inside)),
            ("a case of a switch", stmt("Switch", discriminant=a, cases=[form(test=a, cons=[inside])])),
            ("try", tried([one], [], None)), ("catch", tried([], [one], None)),
            ("finally", tried([], None, [one])), ("while", stmt("While", test=a, body=inside)), ("do", stmt("DoWhile", test=a, body=inside)),
            ("for", stmt("For", init=None, test=None, update=None, body=inside)), ("for in", stmt("ForIn", left=each, right=a, body=inside)),
            ("for of", stmt("ForOf", is_await=False, left=each, right=a, body=inside))]:
        returns(f"a return in {title}", "single", holder)
    inner = function([], one)
    for title, other in [
            ("an empty statement", empty), ("debugger", stmt("Debugger")), ("break", stmt("Break", label=None)), ("continue", stmt("Continue", label=None)),
            ("a thrown function", thrown(inner)), ("a function expression", run(paren(inner))), ("a function declaration", fn_stmt("g", [], one)),
            ("a variable", var_stmt("Const", declarator("x", inner))),
            ("a class", {"Decl": {"Class": {"ident": ident("C"), "declare": False, "class": class_(inner)}}})]:
        returns(f"no return in {title}", "none", other)


def part():
    """All lines, and what they must print."""
    forms_come_back()
    variants_come_back()
    for group in open(os.path.join(TOP, "bench/cases/form_cases.txt"), encoding="utf-8").read().split("\n\n"):
        lines = group.strip("\n").split("\n")
        remark(lines[0].removeprefix("# "))
        for words, answer in zip(lines[1::2], lines[2::2]):
            case(words, words.split(" ", 2)[2] if answer == "= itself" else answer.removeprefix("= "))
    forms_are_made()
    bodies()
    return "".join(line + "\n" for line in LINES), "".join(line + "\n" for line in ANSWERS)
