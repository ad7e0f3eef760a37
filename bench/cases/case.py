"""A module of a case, with what has to come out: its skeleton, or its faults.

A fault is stated by its kind (`type`, `return`, `destructuring`), what is known of the function, and the text or the positions of its range:
`return definitely async 14-15`.
"""
from dataclasses import dataclass, field


@dataclass
class Case:
    name: str
    items: list
    # the skeleton's text, or the list of faults
    expected: object
    # the items that are not public, and those that are implementations with overloads
    private: tuple = ()
    implementations: tuple = ()
    # exported functions are handed in as public by their own ranges, without `export`
    own_ranges: bool = False
    more: dict = field(default_factory=dict)
    # the source's text and program, where they are read and not laid out
    text: str = None
    program: dict = None
