"""Equality of answers under a renaming of positions and scope numbers, by rules of the benches' own.

In JSON a range is a list of two whole numbers, a start and an end, and a scope number stands under `ctxt`. All else has to be equal.
"""


class Renaming:
    """Three one to one lists of pairs: of positions as starts, of positions as ends and of scope numbers. Each takes 0 to 0."""

    def __init__(self, grows=False):
        # whether a number without a partner gets one where it is met
        self.grows = grows
        self.pairs = {kind: {0: 0} for kind in ("starts", "ends", "scopes")}
        self.back = {kind: {0: 0} for kind in self.pairs}

    def add(self, kind, number, partner):
        """Pairs two numbers. Answers whether the list stays one to one."""
        return self.pairs[kind].setdefault(number, partner) == partner and self.back[kind].setdefault(partner, number) == number

    def takes(self, kind, number, partner):
        """Whether it takes the one to the other."""
        if self.grows and number not in self.pairs[kind] and partner not in self.back[kind]:
            return self.add(kind, number, partner)
        return self.pairs[kind].get(number) == partner

    # -- values of JSON

    def takes_range(self, range, other):
        return self.takes("starts", range[0], other[0]) and self.takes("ends", range[1], other[1])

    def takes_tree(self, tree, other, name=None):
        if is_range(tree) and is_range(other):
            return self.takes_range(tree, other)
        if isinstance(tree, dict) and isinstance(other, dict):
            return tree.keys() == other.keys() and all(self.takes_tree(tree[each], other[each], each) for each in tree)
        if isinstance(tree, list) and isinstance(other, list):
            return len(tree) == len(other) and all(map(self.takes_tree, tree, other))
        if name == "ctxt":
            return self.takes("scopes", tree, other)
        return type(tree) is type(other) and tree == other

    # -- answers

    def takes_comments(self, comments, other):
        """Whether the same comments stand at all positions that are paired: those before tokens at starts, those behind them at ends."""
        sides = [("leading", "starts"), ("trailing", "ends")]
        return all(self.takes_tree(at(comments[side], place), at(other[side], partner))
                   for side, kind in sides for place, partner in list(self.pairs[kind].items()))

    def takes_answer(self, answer, other):
        """Whether it takes what `transform` answers of one module to what it answers of another: the module's own span aside."""
        if "Ok" not in answer or "Ok" not in other:
            return "Err" in answer and "Err" in other and self.takes_tree(answer["Err"], other["Err"])
        made, others = answer["Ok"], other["Ok"]
        return (all(self.takes_tree(made["program"][part], others["program"][part]) for part in ("body", "shebang"))
                and self.takes_tree(made["module_info"], others["module_info"]) and self.takes_comments(made["comments"], others["comments"]))


def is_range(tree):
    return isinstance(tree, list) and len(tree) == 2 and all(type(each) is int for each in tree)


def at(places, position):
    """All comments that stand at a position."""
    return [comment for place, comments in places if place == position for comment in comments]


def are_same(answer, other):
    """Whether there is a renaming under which two answers are the same."""
    return Renaming(grows=True).takes_answer(answer, other)
