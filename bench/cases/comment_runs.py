"""Runs of `transform` with comments of all kinds, and at positions where nothing stands."""
from bench.cases.runs import answered, first_module, title


def run(name, given, ranges, stay):
    """The first module with these comments and public ranges. These comments stay."""
    module = first_module()
    module.skeleton = [item for item, span in zip(module.skeleton, module.ranges) if span in ranges]
    request, answer = dict(module.request(), ranges=ranges), module.answer()
    request["module"]["source"]["comments"], answer["Ok"]["comments"] = given, stay
    answered(name, request, answer)


def comments():
    title("directives for the type checker and documentation stay, but for those before what goes")
    comment = lambda kind, text, place: {"kind": kind, "span": [place, place + 9], "text": text}
    at = lambda *lists: [[place, list_] for place, list_ in lists]
    ts, note = comment("Line", " @ts-ignore", 101), comment("Line", " note", 102)
    doc, plain = comment("Block", "* doc ", 103), comment("Block", " plain ", 104)
    first, second = first_module().ranges
    # where the second item begins, and where it ends
    start, end = 23, 40
    given = {"leading": at((start, [ts, note, doc, plain]), (300, [note])), "trailing": at((end, [plain, doc]), (end + 1, [note]))}
    kept, behind = at((start, [ts, doc])), at((end, [doc]))
    run("kept_comments", given, [first, second], {"leading": kept, "trailing": behind})
    twice = {"leading": at((start, [doc]), (1, [doc]), (start, [ts, doc])), "trailing": []}
    run("the_last_comments_of_a_position_count", twice, [first, second], {"leading": at((1, [doc]), (start, [ts, doc])), "trailing": []})
    run("comments_before_what_goes", given, [first], {"leading": [], "trailing": behind})
