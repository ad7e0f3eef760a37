"""Random worlds of several packages and modules: aliases, members, paths, re-exports and references between files, as they come."""
HOST = 'https://host.example/'
NAMES = ['a', 'b', 'c', 'default', 'm', 'prototype']
FLAGS = ['is_class', 'is_member', 'is_function', 'is_ts_namespace', 'is_default_class_expr', 'has_export_keyword']


class RandomModule:
    def __init__(self, rng, url, texts):
        self.rng, self.at, self.texts, self.url = rng, 1, texts, url
        self.count = rng.randint(3, 7)

    def range(self):
        start = self.at
        self.at += self.rng.randint(1, 12)
        return [start, start + self.rng.randint(1, 20)]

    def name(self):
        return ['s%d' % self.rng.randrange(self.count + 1), 1]

    def path(self):
        if self.rng.random() < 0.2:
            return ['prototype'] + [self.rng.choice(NAMES) for _ in range(self.rng.choice([0, 1, 1, 2]))]
        return [self.rng.choice(NAMES) for _ in range(self.rng.choice([0, 1, 1, 2, 3]))]

    def dep(self):
        kind = self.rng.random()
        if kind < 0.5:
            return [{'Id': self.name()}, self.rng.choice(['Value', 'Type_', 'Both'])]
        if kind < 0.75 or not self.texts:
            return [{'QualifiedId': [self.name(), self.path()]}, 'Value']
        return [{'ImportType': [self.rng.choice(self.texts), self.path()]}, 'Type_']

    def kind(self):
        rng, kind = self.rng, self.rng.random()
        if kind < 0.12:
            return {'Target': self.name()}
        if kind < 0.22:
            return {'QualifiedTarget': [self.name(), self.path()]}
        if kind < 0.45 and self.texts:
            name = 'Star' if rng.random() < 0.4 else {'Name': rng.choice(NAMES)}
            return {'FileRef': {'specifier': rng.choice(self.texts), 'name': name}}
        if kind < 0.5:
            return {'Definition': None}
        node = {flag: True for flag in FLAGS if rng.random() < (0.4 if flag == 'is_class' else 0.2)}
        return {'Definition': {**node, 'deps': [self.dep() for _ in range(rng.randint(0, 2))]}}

    def decl(self):
        rng = self.rng
        implements = rng.random() < 0.12
        return {'range': self.range(), 'kind': self.kind(), 'value': rng.random() < 0.75, 'type_': rng.random() < 0.75,
                'has_overloads': implements or rng.random() < 0.1, 'has_body': implements}

    def exports(self, count):
        names = self.rng.sample(NAMES, count)
        return [[name, self.rng.randint(1, self.count)] for name in names]

    def symbol(self, id):
        rng = self.rng
        return {'id': id, 'parent_id': rng.choice([None, 0, rng.randint(1, self.count)]),
                'maybe_name': rng.choice(NAMES + [None]), 'qualified_name': rng.choice(['q%d' % id, 'q%d' % id, None]),
                'is_private_member': rng.random() < 0.12, 'exports': self.exports(rng.choice([0, 0, 1, 2])),
                'members': [rng.randint(1, self.count) for _ in range(rng.choice([0, 0, 1, 2]))],
                'decls': [self.decl() for _ in range(rng.choice([1, 1, 1, 2]))]}

    def tables(self, urls):
        rng = self.rng
        symbols = [{'id': 0, 'exports': self.exports(rng.randint(1, 5))}] + [self.symbol(id) for id in range(1, self.count + 1)]
        again = [[self.range(), rng.choice(self.texts)] for _ in range(rng.choice([0, 0, 1, 2])) if self.texts]
        made = {'specifier': self.url, 'module_symbol': 0, 'symbols': symbols, 're_export_all_nodes': again,
                'swc_ids': [[['s%d' % id, 1], id] for id in range(1, self.count + 1) if rng.random() < 0.95],
                'resolved_exports': [[name, rng.choice(urls)] for name in rng.sample(NAMES, rng.randint(0, 3))]}
        if rng.random() < 0.5:
            made['text'] = 'x' * rng.randint(0, 9)
        return made


def random_node(rng, url):
    kind = rng.random()
    if url.endswith('.js') and kind < 0.7:
        return {'Js': {'media_type': 'JavaScript', 'has_types_dependency': rng.random() < 0.1}}
    if kind < 0.93:
        return {'Js': {'media_type': rng.choice(['TypeScript', 'Mts', 'Dts'])}}
    if kind < 0.96:
        return {'Js': {'media_type': rng.choice(['JavaScript', 'Unknown']), 'has_types_dependency': rng.random() < 0.3}}
    return rng.choice([{'Json': {}}, {'Wasm': {}}, 'External', 'Npm'])


def random_packages(rng):
    """Names of packages with the URLs below which their modules stand: of some they are files of a member of the workspace."""
    made = []
    for letter in 'pqr'[:rng.choice([1, 2, 2, 3])]:
        is_member = rng.random() < 0.25
        made.append(('@%s/%s' % (letter, letter), 'file:///%s/' % letter if is_member else HOST + letter + '/', is_member))
    return made


def random_exports(rng, names):
    typed = [name for name in names if not name.endswith('.js')]
    texts = ['./' + name for name in rng.sample(typed, min(rng.choice([0, 1, 1, 1, 2]), len(typed)))]
    texts += rng.choice([[]] * 30 + [['./absent.ts'], ['http://['], ['./b.js']])
    return [['./%d' % i, text] for i, text in enumerate(texts)]


def random_world(rng, name):
    packages = random_packages(rng)
    graph = {'modules': [], 'resolutions': [], 'packages': []}
    world = {'name': name, 'modules': [], 'aliases': [], 'graph': graph, 'workspace_members': [], 'pending': [],
             'provider': {'fallback': HOST + 'other/', 'packages': []}}
    urls = [below + file for _, below, _ in packages for file in rng.sample(['mod.ts', 'a.ts', 'b.js'], rng.choice([1, 2, 3, 3]))]
    for package, below, is_member in packages:
        own = [url[len(below):] for url in urls if url.startswith(below)]
        exports, version = random_exports(rng, own), '1.0.0'
        if is_member:
            version = rng.choice([None, '1.0.0', '2.0.0'])
            world['workspace_members'].append({'name': package, 'base': below, 'version': version, 'exports': exports})
        else:
            if rng.random() < 0.95:
                world['provider']['packages'].append([package + '@1.0.0', below])
        if not is_member or rng.random() < 0.2:
            graph['packages'].append([package + '@1.0.0', exports])
        if not world['pending'] or rng.random() < 0.25:
            world['pending'].append('%s@%s' % (package, rng.choice([version or '0.0.0', '1.0.0'])))
    for url in urls:
        world['modules'] += random_module(rng, url, urls, graph)
    if rng.random() < 0.2:
        alias = rng.choice(urls) + 'x'
        world['aliases'].append([alias, rng.choice(urls)])
        graph['modules'].append([alias, random_node(rng, alias)])
        graph['resolutions'].append([rng.choice(urls), './t0', alias])
    return world


def random_module(rng, url, urls, graph):
    texts = ['./t%d' % i for i in range(rng.choice([0, 1, 2, 3, 4]))]
    graph['resolutions'] += [[url, text, rng.choice(urls)] for text in texts if rng.random() < 0.95]
    if rng.random() < 0.97:
        graph['modules'].append([url, random_node(rng, url)])
    return [RandomModule(rng, url, texts).tables(urls)] if rng.random() < 0.97 else []
