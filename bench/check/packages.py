"""Worlds of packages and modules for the finder, with what a plain and slow closure finds in each.

The rules stand in package_rules.py, in words of docs/proofs/rules.md and by nothing of the code; package_accounts.py says which answers
an account of demands gives. Compared is exactly that: whether the program's answer is what some account gives, no more and no
less, where who asked first may decide between accounts. For most worlds there is one answer, that of all demands; they are counted.

The stated worlds are those of worlds.txt and search_cases.py; `python3 -m bench vectors` writes them with what must come.

usage: python3 -m bench packages random COUNT SEED      random worlds, as the driver reads them
       python3 -m bench packages compare WORLDS PRINTED   what the driver printed for these worlds, compared
       python3 -m bench packages run COUNT SEED [PROGRAM]   random worlds, run and compared; else by fast_check_vectors, which was built
"""
import json
import os
import random
import subprocess
import sys
import tempfile

from bench.check.program_path import VECTORS, program_path
from bench.check.random_packages import random_world
from bench.oracle.package_accounts import Closure, mismatch, without_nested
from bench.oracle.package_rules import World, order_of
from bench.oracle.package_worlds import request_of, with_ranges, world_of
from bench.oracle.programs import built

PROGRAM = built('fast_check_vectors')


def shown_ranges(name, ranges):
    return ' '.join(['    ' + name] + ['%d-%d' % range for range in sorted(ranges)])


REFERENCE = 'Some("this is the reference")'
KINDS = ['unsupported-private-member-reference', 'not-found-reference', 'unsupported-complex-reference']


def order_of_fault(fault):
    """Faults of the module as a whole come first, and then the others by their places in the text and by their kinds."""
    place, code, message = fault
    return ([*map(int, place.split()[0].split('-')), KINDS.index(code)] if place else []), message


def told(url, place):
    """What is reported of a diagnostic beside its kind and its place: where a reader is led, and what is shown of the text."""
    if not place:
        return ['      location: ' + url, '      snippet: none', '      description: None, mended: false']
    span, _, size, _ = place.split()
    start, end = span.split('-')
    return ['      location: %s of %s, which has %s bytes' % (start, url, size),
            '      snippet: %s to %s of %s bytes: %s' % (start, end, size, REFERENCE), '      description: %s, mended: false' % REFERENCE]


def shown_fault(url, fault):
    place, code, message = fault
    return ['    %s at %s%s' % (code, url, ' ' + place if place else ''), *told(url, place), '      prints as: ' + message]


def shown(name, yields, packages):
    """What the driver prints for what is found."""
    lines = ['world ' + name]
    refused = [it for it in yields if it[0] == 'refused']
    if refused:
        return lines + ['  invalid export %s of %s' % (refused[0][2], refused[0][1])]
    for nv in sorted(packages, key=order_of):
        of = [(it[0], *it[2:]) for it in yields if it[1] == nv]
        lines.append('package ' + nv)
        lines += ['  entry point ' + url for url in sorted(it[1] for it in of if it[0] == 'entry')]
        lines += ['  depends on ' + other for other in sorted((it[1] for it in of if it[0] == 'depends'), key=order_of)]
        for url in sorted({it[1] for it in of if it[0] == 'module'}):
            lines.append('  module ' + url)
            lines.append(shown_ranges('ranges', [it[2] for it in of if it[:2] == ('range', url)]))
            lines.append(shown_ranges('implementations', [it[2] for it in of if it[:2] == ('implementation', url)]))
            faults = [it[2:] for it in of if it[:2] == ('fault', url)]
            lines += [line for fault in sorted(faults, key=order_of_fault) for line in shown_fault(url, fault)]
    return lines


def read_range(word):
    start, end = word.split('-')
    return int(start), int(end)


def read_fault(nv, lines):
    """A fault of its first line and the four behind it."""
    code, where = lines[0].strip().split(' at ', 1)
    url, _, place = where.partition(' ')
    if lines[1:4] != told(url, place) or not lines[4].startswith('      prints as: '):
        raise ValueError(lines)
    return 'fault', nv, url, place, code, lines[4].removeprefix('      prints as: ')


def read_shown(lines):
    """What is found by what the driver printed, and the packages in their order."""
    found, packages, nv, url = [], [], None, None
    for at, line in enumerate(lines):
        words = line.split()
        # The driver's last line counts the worlds that it followed again with refused calls.
        if line.startswith(('      ', 'worlds with calls that were refused')):
            continue
        if line.startswith('  invalid export '):
            found.append(('refused', words[4], words[2]))
        elif line.startswith('package '):
            nv = words[1]
            packages.append(nv)
        elif line.startswith('  entry point '):
            found.append(('entry', nv, words[2]))
        elif line.startswith('  depends on '):
            found.append(('depends', nv, words[2]))
        elif line.startswith('  module '):
            url = words[1]
            found.append(('module', nv, url))
        elif words[0] in ('ranges', 'implementations'):
            found += [(words[0][:-1], nv, url, read_range(word)) for word in words[1:]]
        elif line.startswith('    ') and ' at ' in line:
            found.append(read_fault(nv, lines[at:at + 5]))
        else:
            raise ValueError(line)
    return found, packages


def answered(parts):
    """What all demands of a world give, as the driver prints it."""
    closure = Closure(World(parts))
    yields = without_nested(closure.yielded())
    return shown(parts['name'], yields, closure.entered() | {it[1] for it in yields})


def judged(parts, lines):
    """What is wrong with an answer, if something is, and whether it is that of all demands."""
    world = World(parts)
    closure = Closure(world)
    found, packages = read_shown(lines[1:])
    if lines[0] != 'world ' + parts['name']:
        return 'the line is ' + lines[0], False
    if len(found) != len(set(found)):
        return 'told twice: %s' % sorted(it for it in found if found.count(it) > 1), False
    if packages != sorted(set(packages), key=order_of):
        return 'the order is %s' % packages, False
    return mismatch(world, closure, set(found), packages), set(found) == without_nested(closure.yielded())


def asks_provider(parts):
    """Whether the provider of a world is asked."""
    world = World(parts)
    Closure(world)
    return world.asks_provider


def compare(worlds, printed):
    # The line behind all worlds tells how many of their providers refused a call.
    printed = printed.rsplit('\nworlds with calls', 1)[0]
    chunks = [chunk.splitlines() for chunk in ('\n' + printed).split('\nworld ')[1:]]
    whole, wrong = 0, 0
    for parts, lines in zip(worlds, chunks):
        said, is_whole = judged(parts, ['world ' + lines[0], *lines[1:]])
        whole += is_whole
        if said:
            wrong += 1
            print('%s: %s' % (parts['name'], said))
    missing = len(worlds) - len(chunks)
    print('%d worlds, %d by all demands, %d differ, %d not answered' % (len(worlds), whole, wrong, missing))
    return 1 if wrong or missing else 0


def random_worlds(count, seed):
    rng = random.Random(seed)
    return [with_ranges(random_world(rng, 'random-%d-%d' % (seed, n))) for n in range(count)]


def run(worlds, program):
    with tempfile.TemporaryDirectory() as folder:
        with open(os.path.join(folder, 'worlds'), 'w') as file:
            file.writelines(json.dumps(request_of(world)) + '\n' for world in worlds)
        return subprocess.run([program, 'worlds'], cwd=folder, stdout=subprocess.PIPE, check=True).stdout.decode()


def main(words):
    if words[:1] == ['random'] and len(words) == 3:
        for world in random_worlds(int(words[1]), int(words[2])):
            print(json.dumps(request_of(world)))
        return 0
    if words[:1] == ['compare'] and len(words) == 3:
        return compare([world_of(json.loads(line)) for line in open(words[1])], open(words[2]).read())
    if words[:1] == ['run'] and len(words) in (3, 4):
        program = program_path(words[3] if len(words) == 4 else PROGRAM, VECTORS)
        worlds = random_worlds(int(words[1]), int(words[2]))
        return compare(worlds, run(worlds, program))
    sys.exit(__doc__)


if __name__ == '__main__':
    sys.exit(main(sys.argv[1:]))
