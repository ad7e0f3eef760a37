"""Worlds of `fast_check_cases_finder`: packages, their entry points, whose a module is, and what leaves a module. Each shows a rule, which its name says.

`worlds.txt` has them by the lines of `package_worlds`. What comes is what all demands give, by `package_rules`; lines behind `=` state an answer that is one of
several that accounts give, and lines behind `+` a member of the request that is another, as in `changed_requests`.
"""
import os

from bench.cases.changed_requests import changed, parsed
from bench.oracle.package_worlds import WorldText, with_ranges

CASES = []


def stated(name):
    """Adds the worlds of a file."""
    with open(os.path.join(os.path.dirname(os.path.abspath(__file__)), name)) as file:
        for text in file.read().split('\n\n'):
            title, *lines = [line for line in text.split('\n') if not line.startswith('##')]
            made = WorldText(title.removeprefix('# '), '\n'.join(line for line in lines if line[:2] not in ('= ', '+ ')))
            changes = [change for line in lines if line.startswith('+ ') for change in parsed(line[2:])[1]]
            CASES.append(with_ranges(changed(made.parts, *changes)))
            answer = [line[2:] for line in lines if line.startswith('= ')]
            if answer:
                CASES[-1]['answer'] = ['world ' + CASES[-1]['name'], *answer]


stated('worlds.txt')
