"""Times the finder on packages, modules and symbols of growing number.

Each shape is one world for the part `worlds` of fast_check_vectors, which reads it, follows the packages and prints what is found.
Printed are the processor seconds of the whole run, those of the same run with nothing handed in, which is reading alone, their
difference for each thousand symbols, and the peak memory. The program has to be built: run `rt run` in its crate once.

    packages   packages in a circle, each with modules in a ring of re-exports and with files and re-exports of other packages
    ring       one package whose modules are a ring of re-exports, which a name goes round
    chain      one package whose modules ask for one name each of the next
    star       one package whose entry point exports all of every other module

usage: python3 -m bench finder [SHAPE PACKAGES MODULES SYMBOLS] [PROGRAM]     modules of a package, and symbols of a module
"""
import json
import os
import subprocess
import sys
import tempfile

from bench.check.growth import runner
from bench.check.program_path import VECTORS, program_path
from bench.oracle.package_worlds import request_of
from bench.oracle.programs import built

PROGRAM = built('fast_check_vectors')
HOST = 'https://host.example/'
SIZES = [('packages', 10, 10, 100), ('packages', 100, 10, 100), ('packages', 1000, 10, 10), ('packages', 1000, 10, 100), ('packages', 10, 100, 100),
         ('ring', 1, 100, 100), ('ring', 1, 1000, 100), ('ring', 1, 10000, 10), ('chain', 1, 1000, 100), ('chain', 1, 10000, 10),
         ('star', 1, 1000, 100), ('star', 1, 10000, 10)]


def url(package, module):
    return '%sp%d/%d.ts' % (HOST, package, module)


def decl(number, kind):
    return {'range': [10 * number + 1, 10 * number + 9], 'value': True, 'type_': True, 'kind': kind}


def definition(*deps):
    return {'Definition': {'has_export_keyword': True, 'deps': [[{'Id': [name, 1]}, 'Value'] for name in deps]}}


def file_ref(text, name):
    return {'FileRef': {'specifier': text, 'name': {'Name': name}}}


def module(specifier, kinds, again):
    """A module whose symbols s1, s2, .. have these kinds. It exports each fifth."""
    exports = [['s%d' % id, id] for id in range(1, len(kinds) + 1, 5)]
    symbols = [{'id': 0, 'exports': exports}]
    symbols += [{'id': id, 'parent_id': 0, 'maybe_name': 's%d' % id, 'decls': [decl(id, kind)]} for id, kind in enumerate(kinds, 1)]
    nodes = [[[10 * (len(kinds) + 1 + n) + 1, 10 * (len(kinds) + 1 + n) + 9], text] for n, text in enumerate(again)]
    return {'specifier': specifier, 'module_symbol': 0, 'symbols': symbols, 'swc_ids': [[['s%d' % id, 1], id] for id in range(1, len(kinds) + 1)],
            're_export_all_nodes': nodes, 'resolved_exports': [[name, specifier] for name, _ in exports]}


def kinds_of(symbols, files):
    """Each symbol refers to the next one, and one of them to the last ones, which are aliases of names of files."""
    own = symbols - len(files)
    last = ['s%d' % id for id in range(own + 1, symbols + 1)]
    refs = [file_ref(text, name) for text, name in files]
    return [definition('s%d' % (id + 1)) for id in range(1, own)] + [definition(*last)] + refs


class Shape:
    """What module `m` of package `p` exports again, and the names of files that it has."""

    def __init__(self, name, packages, modules):
        self.name, self.packages, self.modules = name, packages, modules

    def again(self, p, m):
        found = []
        if self.name in ('packages', 'ring'):
            found.append(url(p, (m + 1) % self.modules))
        if self.name == 'packages' and m == 0:
            found.append(url((7 * p + 3) % self.packages, 1 % self.modules))
        if self.name == 'star' and m == 0:
            found += [url(p, other) for other in range(1, self.modules)]
        return found

    def files(self, p, m):
        if self.name == 'chain':
            return [(url(p, (m + 1) % self.modules), 's1')]
        if self.name == 'packages':
            return [(url(p, (m + 3) % self.modules), 's6'), (url((p + 1) % self.packages, 0), 's1')]
        if self.name == 'ring':
            return [(url(p, (m + 2) % self.modules), 'nowhere')]
        return []


def world(name, packages, modules, symbols):
    shape = Shape(name, packages, modules)
    made = {'name': name, 'modules': [], 'aliases': [], 'workspace_members': [], 'pending': ['@p/p0@1.0.0'],
            'graph': {'modules': [], 'resolutions': [], 'packages': [['@p/p%d@1.0.0' % p, [['.', './0.ts']]] for p in range(packages)]},
            'provider': {'fallback': HOST, 'packages': [['@p/p%d@1.0.0' % p, '%sp%d/' % (HOST, p)] for p in range(packages)]},
            'ranges': [[1, 9], [11, 19]]}
    for p in range(packages):
        for m in range(modules):
            own, again, files = url(p, m), shape.again(p, m), shape.files(p, m)
            made['modules'].append(module(own, kinds_of(symbols, files), again))
            made['graph']['modules'].append([own, {'Js': {'media_type': 'TypeScript'}}])
            made['graph']['resolutions'] += [[own, text, text] for text in {*again, *(text for text, _ in files)}]
    return made


def run_in(program, folder, out):
    """The status, the processor seconds and the bytes held of a run in a folder."""
    with open(out, 'w') as file:
        child = subprocess.Popen([program, 'worlds'], cwd=folder, stdout=file)
        _, status, usage = os.wait4(child.pid, 0)
    return os.waitstatus_to_exitcode(status), usage.ru_utime + usage.ru_stime, usage.ru_maxrss * 1024


def spent(program, made):
    """Processor seconds and megabytes of a run on one world, and what it printed."""
    with tempfile.TemporaryDirectory() as folder:
        with open(os.path.join(folder, 'worlds'), 'w') as file:
            json.dump(request_of(made), file, separators=(',', ':'))
        size = os.path.getsize(file.name)
        out = os.path.join(folder, 'out')
        status, seconds, held = runner().apply(run_in, (program, folder, out))
        if status != 0:
            sys.exit('status %d' % status)
        found = sum(line.startswith('  module ') for line in open(out))
        return size / 1e6, seconds, held / 1e6, found


def measure(program, name, packages, modules, symbols):
    made = world(name, packages, modules, symbols)
    size, seconds, peak, found = spent(program, made)
    reading = min(spent(program, {**made, 'pending': []})[1] for _ in range(2))
    count = packages * modules * symbols
    print('%-9s %8d %8d %9d %8.1f %8.2f %8.2f %12.2f %8.0f' % (
        name, packages, found, count, size, seconds, reading, 1e6 * (seconds - reading) / count, peak), flush=True)


def main(words):
    program = program_path(words.pop() if len(words) in (1, 5) else PROGRAM, VECTORS)
    if len(words) not in (0, 4):
        sys.exit(__doc__)
    print('shape     packages  modules   symbols       MB  seconds  reading  ms/1000 sym.  MB peak')
    for size in [(words[0], *map(int, words[1:]))] if words else SIZES:
        measure(program, *size)


if __name__ == '__main__':
    main(sys.argv[1:])
