"""The rules by which packages and modules are followed, as a plain and slow closure.

It stands on the rules in words of docs/proofs/rules.md and on nothing of the code: there is no worklist of traces, nothing is merged
and nobody asks first. A demand is a tuple, what follows from one and what it yields are functions of it, and the closure is the
set of all demands that follow, in some steps, from the packages that are handed in.

    ('package', nv)                                  a package
    ('module', nv, url, names)                       names of a module, for a package: STAR, ALL, or (path, whole)
    ('symbol', nv, url, id, namespaces, how, referrer)  a symbol in some of two namespaces, by 'reference' or as a 'child'
    ('below', nv, url, id, path, whole, referrer)    what a path of names leads to below a symbol

The url of a demand of symbols is the module's own name. What a demand yields is a set of tuples as well:

    ('entry', nv, url)  ('depends', nv, nv)  ('module', nv, url)  ('refused', nv, text)
    ('range', nv, url, range)  ('implementation', nv, url, range)  ('fault', nv, url, place, code, message)
"""
from urllib.parse import urljoin

STAR, ALL = 'all names but default', 'all names'
VALUE, TYPE = 'value', 'type'
BOTH = (VALUE, TYPE)
WHOLE_DEFAULT = (('default',), True)
NESTED = 'unsupported-nested-javascript'
TYPED = {'TypeScript', 'Mts', 'Cts', 'Tsx', 'Dts', 'Dmts', 'Dcts'}
MESSAGES = {
    'not-found-reference': "could not resolve '{name}' referenced from '{referrer}'",
    'unsupported-complex-reference': "the reference '{name}' from '{referrer}' was too complex",
    'unsupported-private-member-reference':
        'public API member ({referrer}) is referencing or transitively referencing a class private member ({name})',
    'unsupported-javascript-entrypoint': 'used a JavaScript module without type declarations as an entrypoint',
    NESTED: 'referenced a JavaScript module without type declarations from a TypeScript module',
    'export-not-found': 'export not found: {url}',
}


def join(base, text):
    """The URL that a text gives below a base, None where it is refused. Of the refused texts only these are known here."""
    if text in ('http://[', 'https://', 'http://a b/', 'https://host.example:port/'):
        return None
    return urljoin(base, text)


def order_of(nv):
    """Packages go by the bytes of their names, and then by their versions, which are three numbers here."""
    name, version = nv.rsplit('@', 1)
    return name.encode(), tuple(map(int, version.split('.')))


class Decl:
    def __init__(self, parts):
        self.range = tuple(parts['range'])
        self.namespaces = [n for n, flag in ((VALUE, 'value'), (TYPE, 'type_')) if parts.get(flag)]
        self.implements = bool(parts.get('has_overloads') and parts.get('has_body'))
        (self.kind, self.content), = parts['kind'].items()
        self.node = self.content or {} if self.kind == 'Definition' else {}
        self.is_alias = self.kind != 'Definition'


class Symbol:
    def __init__(self, parts):
        self.id, self.parent = parts['id'], parts.get('parent_id')
        self.is_private, self.name = bool(parts.get('is_private_member')), parts.get('maybe_name')
        self.whole_name = parts.get('qualified_name') or '<unknown>'
        self.exports, self.members = dict(parts.get('exports', [])), parts.get('members', [])
        self.decls = [Decl(decl) for decl in parts.get('decls', [])]


class Module:
    """A module's tables."""

    def __init__(self, parts):
        self.url, self.text = parts['specifier'], parts.get('text', '')
        self.own = parts['module_symbol']
        self.symbols = {symbol['id']: Symbol(symbol) for symbol in parts['symbols']}
        self.bound = {tuple(id): symbol for id, symbol in parts.get('swc_ids', [])}
        self.again = [(tuple(range), text) for range, text in parts.get('re_export_all_nodes', [])]
        self.answered = dict(parts.get('resolved_exports', []))

    def bound_to(self, id):
        symbol = self.bound.get(tuple(id))
        return symbol if symbol in self.symbols else None

    def exports(self):
        return self.symbols[self.own].exports

    def exported_namespaces(self, id):
        found = {n for decl in self.symbols[id].decls if decl.node.get('has_export_keyword') for n in decl.namespaces}
        return tuple(n for n in BOTH if n in found) or BOTH

    def ranges(self):
        declared = [decl.range for symbol in self.symbols.values() for decl in symbol.decls]
        return set(declared) | {range for range, _ in self.again}


class World:
    """Modules, the graph around them, and what is asked of them."""

    def __init__(self, parts):
        graph = parts['graph']
        self.nodes, self.packages = dict(graph.get('modules', [])), dict(graph.get('packages', []))
        self.resolved = {(referrer, text): url for referrer, text, url in graph.get('resolutions', [])}
        self.tables = {module['specifier']: Module(module) for module in parts.get('modules', [])}
        self.aliases, self.pending = dict(parts.get('aliases', [])), parts['pending']
        self.members, self.provider = parts.get('workspace_members', []), parts['provider']
        # whether the provider was asked for a URL or for a package
        self.asks_provider = False

    # ---- modules

    def module(self, url):
        return self.tables.get(url) or self.tables.get(self.aliases.get(url))

    def is_typed(self, url):
        node = self.nodes[url]
        if isinstance(node, str):
            return False
        (kind, content), = node.items()
        return kind != 'Js' or content['media_type'] in TYPED or bool(content.get('has_types_dependency'))

    def followed(self, url):
        """The module that is followed for a specifier: the graph has it typed, and there are tables under its name."""
        return self.module(url) if url in self.nodes and self.is_typed(url) else None

    # ---- packages

    def member_of(self, nv):
        name, version = nv.rsplit('@', 1)
        return next((m for m in self.members if m['name'] == name and m.get('version') in (None, version)), None)

    def exports_of(self, nv):
        if nv in self.packages:
            return list(dict(self.packages[nv]).values())
        member = self.member_of(nv)
        return list(dict(member['exports']).values()) if member else None

    def base_of(self, nv):
        member = self.member_of(nv)
        if member:
            return member['base']
        self.asks_provider = True
        listed = [base for listed, base in self.provider['packages'] if listed == nv]
        return ([self.provider['fallback']] + listed)[-1]

    def entry_points(self, nv):
        return [join(self.base_of(nv), text) for text in self.exports_of(nv)]

    def entry_fault(self, url):
        if url not in self.nodes:
            return 'export-not-found'
        return None if self.is_typed(url) else 'unsupported-javascript-entrypoint'

    def owner(self, url):
        if url.startswith('file:'):
            member = next((m for m in self.members if url.startswith(m['base'])), None)
            return member and '%s@%s' % (member['name'], member.get('version') or '0.0.0')
        self.asks_provider = True
        # of entries of one package the last counts alone
        counting = {nv: place for place, (nv, _) in enumerate(self.provider['packages'])}.values()
        entries = [self.provider['packages'][place] for place in sorted(counting)]
        return next((nv for nv, base in entries if url.startswith(base)), None)

    # ---- what leaves a module

    def to_file(self, nv, module, text, names):
        """A file of the same package is demanded, and of another one only the package."""
        url = self.resolved.get((module.url, text))
        owner = url and self.owner(url)
        if not owner:
            return []
        return [('module', nv, url, names)] if owner == nv else [('package', owner)]

    def behind(self, nv, url, names):
        """Behind a re-export of all a module is demanded of whatever package, and the package as well."""
        owner = url and self.owner(url)
        if not owner:
            return []
        return [('module', owner, url, names)] + ([('package', owner)] if owner != nv else [])

    # ---- what follows from a demand, and what it yields

    def results(self, demand):
        """What follows, with a package for each dependency, and what is yielded beside dependencies."""
        kind, nv = demand[:2]
        if kind == 'package':
            return self.of_package(nv)
        if kind == 'module':
            return self.of_module(nv, *demand[2:])
        module = self.tables[demand[2]]
        symbol = module.symbols.get(demand[3])
        if symbol is None:
            return [], []
        of = Inside(self, nv, module, symbol)
        if kind == 'symbol':
            of.symbol(*demand[4:])
        else:
            of.below(*demand[4:])
        return of.follows, of.yields

    def of_package(self, nv):
        texts = self.exports_of(nv)
        if texts is None:
            return [], []
        base = self.base_of(nv)
        refused = [text for text in texts if join(base, text) is None]
        if refused:
            return [], [('refused', nv, refused[0])]
        urls = self.entry_points(nv)
        faults = [(url, self.entry_fault(url)) for url in urls if self.entry_fault(url)]
        yields = [('entry', nv, url) for url in urls]
        for url, code in faults:
            yields += [('module', nv, url), ('fault', nv, url, '', code, MESSAGES[code].format(url=url))]
        return [] if faults else [('module', nv, url, ALL) for url in urls], yields

    def of_module(self, nv, url, names):
        if url not in self.nodes or isinstance(self.nodes[url], str):
            return [], []
        if not self.is_typed(url):
            return [], [('module', nv, url), ('fault', nv, url, '', NESTED, MESSAGES[NESTED])]
        module = self.module(url)
        if module is None:
            return [], []
        own = ('module', nv, module.url)
        if names in (STAR, ALL):
            follows, ranges = self.of_star(nv, module, names)
        else:
            follows, ranges = self.of_path(nv, module, *names)
        return follows, [own] + [('range', nv, module.url, range) for range in ranges]

    def by_reference(self, nv, module, id):
        return [('symbol', nv, module.url, id, module.exported_namespaces(id), 'reference', module.own)]

    def of_star(self, nv, module, names):
        follows = []
        for name, id in module.exports().items():
            if name != 'default' or names == ALL:
                follows += self.by_reference(nv, module, id)
        for _, text in module.again:
            follows += self.behind(nv, self.resolved.get((module.url, text)), STAR)
        return follows, [range for range, _ in module.again]

    def of_path(self, nv, module, path, whole):
        if not path:
            return [], []
        first, rest = path[0], path[1:]
        if first in module.exports():
            id = module.exports()[first]
            if whole and not rest:
                return self.by_reference(nv, module, id), []
            return [('below', nv, module.url, id, rest, whole, module.own)], []
        for range, text in module.again:
            other = self.module(self.resolved.get((module.url, text)))
            if other and first in other.answered:
                return self.behind(nv, other.answered[first], (path, whole)), [range]
        return [], [range for range, _ in module.again]


class Inside:
    """What follows from a demand of a symbol, and what it yields."""

    def __init__(self, world, nv, module, symbol):
        self.world, self.nv, self.module, self.of = world, nv, module, symbol
        self.follows, self.yields = [], []

    def reference(self, id, namespaces, referrer):
        self.follows.append(('symbol', self.nv, self.module.url, id, namespaces, 'reference', referrer))

    def path(self, id, names, whole, referrer):
        self.follows.append(('below', self.nv, self.module.url, id, tuple(names), whole, referrer))

    def parts(self, id, names, referrer):
        """Names of a text: no names are the empty path, which can only be touched."""
        self.path(id, names, bool(names), referrer)

    def file(self, text, names):
        self.follows += self.world.to_file(self.nv, self.module, text, names)

    def public(self, range, kind='range'):
        self.yields.append((kind, self.nv, self.module.url, range))

    def fault(self, code, names, referrer):
        name = '.'.join([self.of.whole_name, *names])
        other = self.module.symbols.get(referrer)
        message = MESSAGES[code].format(name=name, referrer=other.whole_name if other else '<unknown>')
        place = '%d-%d' % self.of.decls[0].range + ' of %d bytes' % len(self.module.text.encode())
        self.yields.append(('fault', self.nv, self.module.url, place, code, message))

    def symbol(self, namespaces, how, referrer):
        if self.of.is_private:
            if referrer != self.of.parent:
                self.fault('unsupported-private-member-reference', [], referrer)
            return
        for decl in self.of.decls:
            if set(namespaces) & set(decl.namespaces):
                self.public(decl.range)
                if decl.implements:
                    self.public(decl.range, 'implementation')
                else:
                    self.declared(decl, namespaces, referrer)
        for child in [*self.of.exports.values(), *self.of.members]:
            self.follows.append(('symbol', self.nv, self.module.url, child, BOTH, 'child', self.of.id))

    def declared(self, decl, namespaces, referrer):
        own = self.of.id
        if decl.kind == 'Target':
            if self.module.bound_to(decl.content) is not None:
                self.reference(self.module.bound_to(decl.content), namespaces, own)
        elif decl.kind == 'QualifiedTarget':
            if self.module.bound_to(decl.content[0]) is not None:
                self.parts(self.module.bound_to(decl.content[0]), decl.content[1], own)
        elif decl.kind == 'FileRef':
            name = decl.content['name']
            self.file(decl.content['specifier'], STAR if name == 'Star' else ((name['Name'],), True))
        else:
            self.defined(decl, referrer)

    def defined(self, decl, referrer):
        own, node = self.of.id, decl.node
        if node.get('is_member') and self.of.parent is not None and referrer != self.of.parent:
            self.reference(self.of.parent, BOTH, own)
        if node.get('is_function'):
            for child in self.of.exports.values():
                for other in self.module.symbols[child].decls:
                    if not (decl.range[0] <= other.range[0] and other.range[1] <= decl.range[1]):
                        self.public(other.range)
        for dep, namespace in node.get('deps', []):
            (kind, content), = dep.items()
            if kind == 'ImportType':
                self.file(content[0], (tuple(content[1]), True) if content[1] else ALL)
                continue
            id = self.module.bound_to(content if kind == 'Id' else content[0])
            if id is None:
                continue
            if kind == 'Id':
                self.reference(id, {'Value': (VALUE,), 'Type_': (TYPE,), 'Both': BOTH}[namespace], own)
            else:
                self.parts(id, content[1], own)

    def below(self, path, whole, referrer):
        for decl in self.of.decls:
            self.public(decl.range)
        aliases = [decl for decl in self.of.decls if decl.is_alias]
        for decl in aliases:
            if decl.kind == 'FileRef':
                name = decl.content['name']
                before = () if name == 'Star' else (name['Name'],)
                self.file(decl.content['specifier'], (before + path, whole))
                continue
            id = self.module.bound_to(decl.content if decl.kind == 'Target' else decl.content[0])
            if id is None:
                continue
            self.path(id, path, whole, referrer)
            if decl.kind == 'QualifiedTarget':
                for name in decl.content[1]:
                    self.path(id, (name,), True, referrer)
        if not aliases and path:
            self.first_name(path[0], path[1:], whole, referrer)

    def first_name(self, first, rest, whole, referrer):
        says = {flag for decl in self.of.decls for flag, is_set in decl.node.items() if is_set}
        if first == 'prototype' and 'is_class' in says:
            self.prototype(rest, whole, referrer)
        elif first in self.of.exports:
            if whole and not rest:
                self.reference(self.of.exports[first], BOTH, referrer)
            else:
                self.path(self.of.exports[first], rest, whole, referrer)
        elif says & {'is_class', 'is_ts_namespace', 'is_default_class_expr'}:
            self.fault('not-found-reference', [first], referrer)
        else:
            self.reference(self.of.id, BOTH, referrer)

    def prototype(self, rest, whole, referrer):
        if not rest:
            if whole:
                self.reference(self.of.id, BOTH, referrer)
            return
        known = [self.module.symbols[id] for id in self.of.members if id in self.module.symbols]
        members = [symbol for symbol in known if symbol.name == rest[0]]
        if not members:
            self.fault('not-found-reference', ['prototype', rest[0]], referrer)
        elif rest[1:]:
            self.fault('unsupported-complex-reference', ['prototype', *rest[:2]], referrer)
        elif whole:
            self.reference(members[0].id, BOTH, referrer)
