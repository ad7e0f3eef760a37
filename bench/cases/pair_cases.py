"""Pairs of modules: NAME.a.ts and NAME.b.ts of the folder `pairs`, each with what has to be answered, and with the second whether what differs is hidden.

Where it is hidden both answers have to be the same under a renaming. Beside each hidden pair stands the nearest edit that is not: its answers are the
same under none.
"""
from bench.cases.changed_requests import changed, sections
from bench.cases.refused_runs import expando_request
from bench.cases.runs import case, first_module, line, put as put_file, put_example, title
from bench.oracle.renamings import are_same


def request_of(a, b):
    """The request of two modules, by that of each."""
    return {"graph": a["graph"], "a": a["module"], "ranges_a": a["ranges"], "impls_a": a["impls"],
            "b": b["module"], "ranges_b": b["ranges"], "impls_b": b["impls"], "first": a["first"]}


# the pair that is an example, and the name that it has there
EXAMPLE = "pair_a_body_and_a_default", "pair"


def pairs(folder, laid_out, agree):
    """Each group of pairs, with what it shows. `laid_out` gives the request and the answer of one module."""
    for words, names in folder.titles:
        title(words)
        for name in names:
            one, other = folder.case(f"{name}.a"), folder.case(f"{name}.b")
            (a, first), (b, second) = laid_out(one), laid_out(other)
            agree(name, "pair", other.more["answers"], "the same" if are_same(first, second) else "others")
            answered(name, request_of(a, b), first, second)
    options()
    refusals()


def answered(name, content, first, second):
    put_file(f"{name}.json", content)
    case(f"pair {name}.json", int("Err" in first or "Err" in second), line([first, second]))
    if name == EXAMPLE[0]:
        put_example(EXAMPLE[1], name, [first, second])


def options():
    title("the option is one for both modules; ranges that are left out are none")
    whole, faulty = first_module(), first_module()
    for each in "ab":
        faulty.variable("let", each)
    first, second = request_of(faulty.request(first=True), whole.request()), request_of(whole.request(first=True), faulty.request())
    answered("pair_the_first_fault_of_the_first", first, faulty.answer(first=True), whole.answer())
    answered("pair_the_first_fault_of_the_second", second, whole.answer(), faulty.answer(first=True))
    answered("pair_all_faults_of_both", request_of(faulty.request(), faulty.request()), faulty.answer(), faulty.answer())
    bare = {member: value for member, value in request_of(whole.request(), whole.request()).items() if member in ("graph", "a", "b")}
    empty = dict(whole.answer()["Ok"], program=dict(whole.answer()["Ok"]["program"], body=[]))
    answered("pair_of_nothing_public", bare, {"Ok": empty}, {"Ok": empty})
    answered("pair_of_a_public_second", dict(bare, ranges_b=whole.ranges, more=1), {"Ok": empty}, whole.answer())


def refusals():
    of = {"whole": first_module().request(), "expando": expando_request()}
    for words, lines in sections("pair.txt"):
        title(words)
        for name, word, base, changes in lines:
            first, second = (base or "whole whole").split()
            put_file(f"{name}.json", changed(request_of(of[first], of[second]), *changes))
            case(f"pair {name}.json", 2, f"error: input refused: {word}\n")
