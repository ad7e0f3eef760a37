"""Worlds by texts: modules with their symbols, packages, members of a workspace, and what is handed in.

    package p ./mod.ts ./b.ts        the package @p/p@1.0.0 below https://host.example/p/, which the provider and the graph know, with these exports
    package p@2.0.0 ..               the same of another version, below https://host.example/p@2.0.0/
    unlisted p ./mod.ts              a package that the graph knows and the provider does not
    member w/a - file:///w/a/ ./a.ts   a member of the workspace: @w/a, without version or with one, its base and its exports
    pending p q                      the packages that are handed in
    alias p/main.ts p/mod.ts         a name that stands for a module
    only p/b.js JavaScript           a module of the graph without tables
    module p/mod.ts                  a module of the graph with tables. Behind its name may stand a media type or kind, `types` where it has a
                                     types dependency, `away` where the graph lacks it, and `text=N` where it has a source text of N bytes

The lines of a module are indented. A symbol is `NAME: DECLARATION; DECLARATION`; before the name may stand `export`, or `export NAME as` for
another export name, and `private`. What it lists is indented further: `member NAME: ..` and `child NAME: ..` (an export of the symbol).
A declaration may have `value` or `type` (else both), `overloads`, `body`, `inside` (of the declaration before it), and is one of

    target NAME | part NAME.a.b | file TEXT NAME | file TEXT * | define FLAG.. DEP..

with the flags class, member, function, namespace, default, keyword and the deps value:NAME type:NAME both:NAME path:NAME.a.b import:TEXT#a.b.
Other lines are `again TEXT` (a re-export of all), `answers NAME MODULE` (a resolved export) and `unbound NAME`.
A text `./x` resolves below the module, `q/x` to the module q/x, and `?..` to nothing. Ranges are told out in the order of the text.
"""
from urllib.parse import urljoin

HOST = 'https://host.example/'
FLAGS = {'class': 'is_class', 'member': 'is_member', 'function': 'is_function', 'namespace': 'is_ts_namespace',
         'default': 'is_default_class_expr', 'keyword': 'has_export_keyword'}
NAMESPACES = {'value': 'Value', 'type': 'Type_', 'both': 'Both'}


def url_of(word):
    return word if ':' in word else HOST + word


def nv_of(word):
    name, _, version = word.partition('@')
    return '%s@%s' % ('@' + name if '/' in name else '@%s/%s' % (name, name), version or '1.0.0')


class ModuleText:
    """The tables of a module, line by line."""

    def __init__(self, url):
        self.url, self.at, self.texts = url, 1, set()
        self.parts = {'specifier': url, 'module_symbol': 0, 'symbols': [{'id': 0, 'exports': []}], 'swc_ids': [], 're_export_all_nodes': [],
                      'resolved_exports': []}
        self.open = [(-1, self.parts['symbols'][0])]

    def range(self):
        self.at += 10
        return [self.at - 10, self.at - 1]

    def range_inside(self):
        """A range inside of the last one."""
        return [self.at - 8, self.at - 3]

    def text(self, text):
        self.texts.add(text)
        return text

    def dep(self, word):
        kind, rest = word.split(':', 1)
        if kind == 'import':
            text, _, path = rest.partition('#')
            return [{'ImportType': [self.text(text), path.split('.') if path else []]}, 'Type_']
        if kind == 'path':
            name, *names = rest.split('.')
            return [{'QualifiedId': [[name, 1], names]}, 'Value']
        return [{'Id': [rest, 1]}, NAMESPACES[kind]]

    def kind(self, words):
        kind, rest = words[0], words[1:]
        if kind == 'target':
            return {'Target': [rest[0], 1]}
        if kind == 'part':
            name, *names = rest[0].split('.')
            return {'QualifiedTarget': [[name, 1], names]}
        if kind == 'file':
            return {'FileRef': {'specifier': self.text(rest[0]), 'name': 'Star' if rest[1] == '*' else {'Name': rest[1]}}}
        if rest == ['nothing']:
            return {'Definition': None}
        node = {FLAGS[word]: True for word in rest if ':' not in word}
        deps = [self.dep(word) for word in rest if ':' in word]
        return {'Definition': {**node, 'deps': deps} if deps else node}

    def decl(self, text):
        words = text.split()
        at = next(i for i, word in enumerate(words) if word in ('target', 'part', 'file', 'define'))
        flags = set(words[:at])
        both = not flags & {'value', 'type'}
        range = self.range_inside() if 'inside' in flags else self.range()
        made = {'range': range, 'kind': self.kind(words[at:]), 'value': both or 'value' in flags, 'type_': both or 'type' in flags}
        made.update({'has_' + flag: True for flag in ('overloads', 'body') if flag in flags})
        return made

    def symbol(self, head, decls, depth):
        while self.open[-1][0] >= depth:
            self.open.pop()
        owner, words = self.open[-1][1], head.split()
        name, top = words[-1], owner['id'] == 0
        symbol = {'id': len(self.parts['symbols']), 'parent_id': owner['id'], 'maybe_name': name, 'exports': [], 'members': [],
                  'qualified_name': name if top else owner['qualified_name'] + ('.prototype.' if 'member' in words[:-1] else '.') + name,
                  'is_private_member': 'private' in words, 'decls': [self.decl(decl) for decl in decls.split(';')]}
        self.parts['symbols'].append(symbol)
        if {'export', 'child'} & set(words[:-1]):
            owner['exports'].append([words[words.index('as') - 1] if 'as' in words else name, symbol['id']])
        if 'member' in words[:-1]:
            owner['members'].append(symbol['id'])
        if top:
            self.parts['swc_ids'].append([[name, 1], symbol['id']])
        self.open.append((depth, symbol))

    def line(self, line):
        depth, words = len(line) - len(line.lstrip()), line.split()
        if words[0] == 'again':
            self.parts['re_export_all_nodes'].append([self.range(), self.text(words[1])])
        elif words[0] == 'answers':
            self.parts['resolved_exports'].append([words[1], url_of(words[2])])
        elif words[0] == 'unbound':
            self.parts['swc_ids'] = [it for it in self.parts['swc_ids'] if it[0][0] != words[1]]
        elif words[0] == 'lists':
            # a symbol that lists itself or another one: `lists NAME AS`
            ids = {symbol.get('maybe_name'): symbol for symbol in self.parts['symbols']}
            ids[words[1]]['exports'].append([words[3], ids[words[2]]['id']])
        else:
            head, _, decls = line.partition(': ')
            self.symbol(head.strip(), decls, depth)

    def resolutions(self):
        for text in sorted(self.texts):
            if not text.startswith('?'):
                yield [self.url, text, urljoin(self.url, text) if text.startswith('.') else url_of(text)]


class WorldText:
    """A world, line by line."""

    def __init__(self, name, text):
        self.parts = {'name': name, 'modules': [], 'aliases': [], 'graph': {'modules': [], 'resolutions': [], 'packages': []},
                      'workspace_members': [], 'provider': {'fallback': HOST + 'other/', 'packages': []}, 'pending': []}
        self.modules = []
        for line in text.splitlines():
            if line.strip() and line.strip() == line:
                command, *words = line.split()
                getattr(self, command)(*words)
            elif line.strip():
                self.modules[-1].line(line)
        graph = self.parts['graph']
        graph['resolutions'] += [it for module in self.modules for it in module.resolutions()]
        self.parts['modules'] = [module.parts for module in self.modules]

    def unlisted(self, word, *texts):
        self.parts['graph']['packages'].append([nv_of(word), [['.' if i == 0 else text, text] for i, text in enumerate(texts)]])

    def package(self, word, *texts):
        self.listed(word)
        self.unlisted(word, *texts)

    def listed(self, word, url=None):
        self.parts['provider']['packages'].append([nv_of(word), url_of(url or word + '/')])

    def member(self, word, version, base, *texts):
        exports = [['.' if i == 0 else text, text] for i, text in enumerate(texts)]
        member = {'name': nv_of(word).rsplit('@', 1)[0], 'base': base, 'exports': exports}
        self.parts['workspace_members'].append({**member, 'version': None if version == '-' else version})

    def pending(self, *words):
        self.parts['pending'] += map(nv_of, words)

    def alias(self, name, module):
        self.parts['aliases'].append([url_of(name), url_of(module)])

    def only(self, word, kind='TypeScript', types=None):
        node = kind
        if kind in ('Json', 'Wasm'):
            node = {kind: {}}
        elif kind not in ('Npm', 'Node', 'External'):
            node = {'Js': {'media_type': kind, 'has_types_dependency': types == 'types'}}
        self.parts['graph']['modules'].append([url_of(word), node])

    def module(self, word, *flags):
        made = ModuleText(url_of(word))
        for flag in flags:
            if flag.startswith('text='):
                made.parts['text'] = 'x' * int(flag[5:])
        if 'away' not in flags:
            kinds = [flag for flag in flags if '=' not in flag and flag not in ('types', 'away')]
            self.only(word, *(kinds or ['TypeScript']), *(['types'] if 'types' in flags else []))
        self.modules.append(made)


def with_ranges(world):
    """The world with all ranges of its tables: the driver asks of each of them whether it is public."""
    ranges = set()
    for module in world['modules']:
        ranges |= {tuple(decl['range']) for symbol in module['symbols'] for decl in symbol.get('decls', [])}
        ranges |= {tuple(range) for range, _ in module['re_export_all_nodes']}
    return {**world, 'ranges': sorted(ranges)}


NO_ITEMS = {'Module': {'span': [0, 0], 'body': [], 'shebang': None}}


def module_entry(module):
    """A module as the input of `build` has it. One without text is a JSON module. No tree has items, since the finder looks at none."""
    tables = {name: part for name, part in module.items() if name != 'text'}
    if 'text' not in module:
        return [module['specifier'], {'Json': tables}]
    source = {'media_type': 'TypeScript', 'text': module['text'], 'program': NO_ITEMS, 'comments': {}}
    return [module['specifier'], {'Esm': {**tables, 'source': source}}]


def request_of(world):
    """A world as the driver reads it: the input of `build`, with the name and the ranges of the world."""
    return {**world, 'modules': [module_entry(module) for module in world['modules']]}


def module_of_entry(entry):
    (kind, parts), = entry[1].items()
    parts = dict(parts)
    source = parts.pop('source', None)
    return {**parts, 'text': source['text']} if source else parts


def world_of(request):
    """The world of what the driver reads."""
    return {**request, 'modules': [module_of_entry(entry) for entry in request['modules']]}
