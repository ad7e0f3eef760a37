"""What of two answers may differ. `same` answers the notes of what does, None where something else differs.

A span or a scope of a node that the transform has made, and no rule reads, is normalised, one way alone:

    body            the answered block of a function, method or constructor: 0 here, that of the source there (its span and its scope)
    property        the property that a parameter declares: begins at or before its key here, 0 there
    parameter       a parameter that the transform has made: 0 there
    declarator      the declarator of a name that an assignment declares: 0 there
    declared name   that name: 0 here

and two orders of the diagnostics of a build, which are told:

    order           they come by place here, and as traces find them there
    once            they come once here, and once for each trace there
"""
import json

NONE = ([0, 0], 0)
FUNCTIONS = ("function", "Constructor", "Getter", "Setter")


def begins_by(span, key):
    return span[0] <= next(iter(key.values()))["span"][0]


def made(key, path, node, ours, theirs):
    """The note of a member that may differ, None where it may not. `node` is ours, and `path` the names that lead to it."""
    up = path[-1:]
    if key in ("span", "ctxt") and up == ("body",) and path[-2:-1] and path[-2] in FUNCTIONS and ours in NONE:
        return "body"
    if key != "span":
        return None
    if up == ("ClassProp",) and theirs in NONE and begins_by(ours, node["key"]):
        return "property"
    if up in (("Param",), ("params",)) and theirs in NONE:
        return "parameter"
    if up == ("decls",) and theirs in NONE and "declare" not in node:
        return "declarator"
    if path[-4:] == ("decls", "name", "Ident", "id") and ours in NONE:
        return "declared name"
    return None


def notes_of(ours, theirs, path=()):
    """The notes of two values, None where they differ otherwise."""
    if ours == theirs:
        return set()
    if isinstance(ours, dict) and isinstance(theirs, dict) and ours.keys() == theirs.keys():
        pairs = [(ours[key], theirs[key], path + (key,), made(key, path, ours, ours[key], theirs[key])) for key in ours if ours[key] != theirs[key]]
    elif isinstance(ours, list) and isinstance(theirs, list) and len(ours) == len(theirs):
        pairs = [(one, other, path, None) for one, other in zip(ours, theirs)]
    else:
        return None
    found = [{note} if note else notes_of(one, other, at) for one, other, at, note in pairs]
    return None if None in found else set().union(*found)


def each_list(answers, change):
    return [[url, {"Err": change(answer["Err"])} if "Err" in answer else answer] for url, answer in answers]


def in_order(diagnostics):
    return sorted(diagnostics, key=lambda each: json.dumps(each, sort_keys=True))


def once(diagnostics):
    return [each for place, each in enumerate(diagnostics) if each not in diagnostics[:place]]


def same(ours, theirs):
    """The notes of two printed answers, None where they differ."""
    if ours == theirs:
        return set()
    ours, theirs = json.loads(ours), json.loads(theirs)
    notes = notes_of(ours, theirs)
    if notes is not None or isinstance(ours, dict):
        return notes
    for told, change in ((["order"], in_order), (["order", "once"], lambda diagnostics: once(in_order(diagnostics)))):
        notes = notes_of(each_list(ours, change), each_list(theirs, change))
        if notes is not None:
            return notes | set(told)
    return None
