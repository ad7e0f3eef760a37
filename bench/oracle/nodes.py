"""New nodes of skeletons: no text stands for them, so their ranges are 0 to 0."""
from bench.oracle.trees import DUMMY, KEYWORDS


def new(variant, **fields):
    return {variant: {"span": DUMMY, **fields}}


def keyword(written):
    return new("TsKeywordType", kind=KEYWORDS[written])


def annotated(written):
    return {"span": DUMMY, "type_ann": written}


def never(value):
    return new("TsAs", expr=value, type_ann=keyword("never"))


EMPTY_OBJECT, EMPTY_ARRAY = new("Object", props=[]), new("Array", elems=[])
NEVER, NEVER_ARRAY = never(EMPTY_OBJECT), never(EMPTY_ARRAY)
NEVER_IN_PARENTHESES = new("Paren", expr=NEVER)


def variant(node):
    (name, inside), = node.items()
    return name, inside
