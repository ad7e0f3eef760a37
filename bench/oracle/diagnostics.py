"""What a reader is shown of a fault, by the texts of forms/diagnostics.txt and what is known of a function."""
import os
import sys

sys.path.append(os.path.join(os.path.dirname(os.path.abspath(__file__)), "../../forms"))
from diagnostics import read_page  # noqa: E402

TEXTS, ROWS = read_page()
ROWS = {row.code: row for row in ROWS}


def text(words):
    """A text as it is, or by its name."""
    return TEXTS[words[1:]] if words and words.startswith("=") else words


def diagnostic(fault, specifier, pages, message=None):
    """What is printed of a fault: its code, its range, and what is known of it besides, two values: of a function without return type whether it is definitely
    void or never and whether it is asynchronous, of an expando property the name of the object and of the reference. The page of each kind stands at `pages`
    and the kind's name. The message is the row's, unless it is given."""
    code, place, *known = fault
    row = ROWS[code]
    hint, info = text(row.hint), list(map(text, row.lines))
    if code == "missing-explicit-return-type":
        hint, info = of_function(*known)
    elif code == "unsupported-expando-property":
        names = dict(zip(("object_name", "reference_name"), known))
        message, hint = row.message.format(**names), hint.format(**names)
    return {"code": code, "docs_url": pages + code, "hint": hint, "info": info, "level": "Warning" if row.is_warning else "Error",
            "message": message or row.message, "range": place, "specifier": specifier}


def of_function(is_definitely, is_async):
    """The hint and the lines of a function without return type."""
    hint = "RETURN_NOTHING" if is_definitely else "RETURN_PROMISE" if is_async else "RETURN_TYPE"
    more = ["PROMISE_RETURNED" if is_async else "NOTHING_RETURNED", "NO_RETURNS"] if is_definitely else []
    return TEXTS[hint], [TEXTS[name] for name in ("NEEDS_RETURN_TYPE", *more)]
