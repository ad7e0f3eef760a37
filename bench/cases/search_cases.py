"""More worlds of `fast_check_cases_finder`: searches through the symbols of one module, names of a module that another one imports, and of what is
written twice the one that counts. What comes is what all demands give, by the rules of `package_rules`.

A search of `searches.txt` is a module by its symbols, a line for each thing that stands in the tables, and what is asked of them. Here a symbol `ask` refers
to all that is asked, and the entry point of the package exports it.
"""
import json
import os

from bench.cases.worlds import CASES, stated
from bench.oracle.package_worlds import FLAGS, NAMESPACES, WorldText, with_ranges

HERE = os.path.dirname(os.path.abspath(__file__))
FLAGS = {**FLAGS, 'default_class': 'is_default_class_expr', 'exported': 'has_export_keyword'}
NAMESPACE = {'value': 'Value', 'type': 'Type_', 'both': 'Both'}
# the number of the symbol that asks, and the scope number of the names by which it does
ASK, ASKING = 90, 9


def add(made):
    CASES.append(with_ranges(made.parts))


# ---- searches


def dep(word):
    kind, name = word.split(':')
    if kind == 'path':
        first, *names = name.split('.')
        return [{'QualifiedId': [[first, 0], names]}, 'Both']
    return [{'Id': [name, 0]}, NAMESPACES[kind]]


def kind_of(words):
    kind, rest = words[0], words[1:]
    if kind == 'target':
        return {'Target': [rest[0], 0]}
    if kind == 'part':
        return {'QualifiedTarget': [[rest[0], 0], rest[1:]]}
    if kind == 'file':
        return {'FileRef': {'specifier': './other.ts', 'name': 'Star'}}
    flags = {FLAGS[word]: True for word in rest if ':' not in word}
    return {'Definition': {**flags, 'deps': [dep(word) for word in rest if ':' in word]}}


def decl(words):
    at = next(place for place, word in enumerate(words) if word in ('target', 'part', 'file', 'define'))
    flags = words[2:at]
    return {'range': [int(words[0]), int(words[1])], 'value': 'value' in flags, 'type_': 'type' in flags, 'has_overloads': 'overloads' in flags,
            'has_body': 'body' in flags, 'kind': kind_of(words[at:])}


def asked(words):
    """What `ask` refers to for a line `ask`."""
    name = [f's{words[0]}', ASKING]
    if words[2] in NAMESPACE:
        return [{'Id': name}, NAMESPACE[words[2]]]
    return [{'QualifiedId': [name, words[3:]]}, 'Value']


def symbol(words):
    there = [None if word == '-' else word for word in words]
    return {'id': int(words[0]), 'parent_id': there[1] and int(there[1]), 'maybe_name': there[2], 'qualified_name': there[3],
            'is_private_member': 'private' in words[4:], 'exports': [], 'members': [], 'decls': []}


def tables_of(lines):
    """The tables of a search."""
    symbols, bound, asks = [], [], []
    for line in lines:
        command, *words = line.split()
        if command == 'symbol':
            symbols.append(symbol(words))
        elif command == 'export':
            symbols[-1]['exports'].append([words[0], int(words[1])])
        elif command == 'member':
            symbols[-1]['members'].append(int(words[0]))
        elif command == 'decl':
            symbols[-1]['decls'].append(decl(words))
        elif command == 'bind':
            bound.append([[words[0], 0], int(words[1])])
        else:
            asks.append(asked(words))
            bound.append([[f's{words[0]}', ASKING], int(words[0])])
    symbols[0]['exports'].append(['ask', ASK])
    asking = {'has_export_keyword': True, 'deps': asks}
    symbols.append({'id': ASK, 'parent_id': 0, 'maybe_name': 'ask', 'qualified_name': 'ask',
                    'decls': [{'range': [901, 909], 'value': True, 'type_': True, 'kind': {'Definition': asking}}]})
    return {'symbols': symbols, 'swc_ids': bound}


def searches():
    for lines in open(os.path.join(HERE, 'searches.txt')).read().strip().split('\n\n'):
        head, *lines = lines.split('\n')
        made = WorldText('search: ' + head.removeprefix('# '), '''
package p ./mod.ts
pending p
module p/mod.ts
  export ask: file ./s.ts ask
module p/s.ts
''')
        made.parts['modules'][1].update(tables_of(lines))
        add(made)


# ---- names of a module that another one imports

# three modules: the first re-exports all of both others, and its names are of all kinds
FOLLOWED = json.load(open(os.path.join(HERE, 'followed.json')))
def importing(module, names):
    """The lines of a module that imports these names of another one."""
    if names == '*':
        return f'  export ask: file ./{module} *'
    if names == '-':
        return f'  export ask: define keyword path:e\n  e: file ./{module} *'
    return '  export ask: define keyword ' + ' '.join(f'import:./{module}' + ('' if name == '**' else f'#{name}') for name in names.split())


def imports():
    """Lines of `imports.txt`: a module, the names that are imported of it, and what that shows; lines behind `=` state the answer."""
    for line in open(os.path.join(HERE, 'imports.txt')).read().splitlines():
        if line.startswith('= '):
            CASES[-1].setdefault('answer', ['world ' + CASES[-1]['name']]).append(line[2:])
            continue
        asked, _, shown = line.partition(': ')
        made = WorldText('import: ' + shown, 'member w/p - file:///p/ ./ask.ts\npending w/p@0.0.0\nmodule file:///p/ask.ts\n' + importing(*asked.split(' ', 1)))
        parts = made.parts
        for name in ('mod', 'a', 'b', 'c', 'main'):
            made.only(f'file:///p/{name}.ts')
        parts['modules'] += FOLLOWED['modules']
        parts['graph']['resolutions'] += FOLLOWED['resolutions']
        parts['aliases'] += FOLLOWED['aliases']
        add(made)


searches()
imports()
stated('twice.txt')
