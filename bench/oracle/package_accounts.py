"""What a world's demands give, and whether what was found is what some account of demands gives.

Which of several demands comes first may decide what is found: a name that is demanded whole is not followed again for a part of
it, a symbol that was demanded in one namespace is followed in the other alone, and of several referrers one is enough. So a world
has several accounts. An account is a set of demands that all follow from the packages handed in, has these packages, and covers
all that follows from its members, also by widening. `largest` looks for the largest account that gives nothing but what was found:
there is an account that gives exactly that if and only if this one does.
"""
from collections import defaultdict

from bench.oracle.package_rules import ALL, BOTH, NESTED, STAR, WHOLE_DEFAULT


def demands_default(names):
    return names == ALL or (names != STAR and names[0][:1] == ('default',))


class Paths:
    """The join of what is demanded of a module, or below a symbol."""

    def __init__(self):
        self.stars, self.whole, self.touched = set(), set(), set()

    def add(self, names):
        if names in (STAR, ALL):
            self.stars.add(names)
            return
        path, whole = names
        if whole:
            self.whole.add(path)
        self.touched |= {path[:n] for n in range(len(path) + 1)}

    def has_whole(self, path):
        return any(path[:n] in self.whole for n in range(1, len(path) + 1))

    def holds(self, names):
        if ALL in self.stars:
            return True
        if names == ALL:
            return STAR in self.stars and self.has_whole(('default',))
        if names == STAR:
            return STAR in self.stars
        path, whole = names
        if not path:
            return bool(self.stars or self.touched)
        if STAR in self.stars and path[0] != 'default':
            return True
        return self.has_whole(path) or (not whole and path in self.touched)


class Cover:
    """What a set of demands covers."""

    def __init__(self, demands):
        self.demands, self.names, self.below = demands, defaultdict(Paths), defaultdict(Paths)
        self.references, self.children = set(), set()
        for demand in demands:
            if demand[0] == 'module':
                self.names[demand[2]].add(demand[3])
            elif demand[0] == 'below':
                self.below[demand[1:4]].add(demand[4:6])
            elif demand[0] == 'symbol':
                known = self.references if demand[5] == 'reference' else self.children
                known.update((demand[1:4], n) for n in demand[4])

    def has(self, demand):
        if demand[0] == 'package':
            return demand in self.demands
        if demand[0] == 'module':
            return self.names[demand[2]].holds(demand[3])
        if demand[0] == 'below':
            return self.below[demand[1:4]].holds(demand[4:6])
        as_child = self.children if demand[5] == 'child' else ()
        return all((demand[1:4], n) in self.references or (demand[1:4], n) in as_child for n in demand[4])

    def is_widened(self, url):
        """Beside a star and `default` of one module all names are demanded."""
        names = self.names[url]
        has_default = names.has_whole(('default',)) or ('default',) in names.touched
        return not (STAR in names.stars and has_default) or names.holds(ALL)


class Closure:
    """All demands that follow from the packages that are handed in."""

    def __init__(self, world):
        self.world, self.results = world, {}
        self.roots = {('package', nv) for nv in world.pending}
        by_url, todo = defaultdict(set), list(self.roots)
        while todo:
            demand = todo.pop()
            if demand in self.results:
                continue
            follows, yields = world.results(demand)
            packages = {it[1] for it in follows if it[0] == 'package'}
            self.results[demand] = set(follows), set(yields) | {('depends', demand[1], nv) for nv in packages}
            todo += follows
            if demand[0] == 'module':
                by_url[demand[2]].add(demand)
                todo += self.widened(demand, by_url[demand[2]])
            if demand[0] == 'symbol' and demand[4] == BOTH:
                todo += [(*demand[:4], (n,), *demand[5:]) for n in BOTH]

    @staticmethod
    def widened(demand, others):
        for other in others:
            for star, default in ((demand, other), (other, demand)):
                if star[3] in (STAR, ALL) and demands_default(default[3]):
                    for nv in {star[1], default[1]}:
                        yield 'module', nv, demand[2], WHOLE_DEFAULT
                        yield 'module', nv, demand[2], ALL

    def yielded(self, demands=None):
        return {it for demand in (self.results if demands is None else demands) for it in self.results[demand][1]}

    def entered(self):
        """The packages that are keys of an answer though nothing may be found of them."""
        return {d[1] for d in self.results if d[0] == 'package' and self.world.exports_of(d[1]) is not None}


def is_nested(it):
    return it[0] == 'fault' and it[4] == NESTED


def without_nested(yields):
    """A nested untyped module is reported only where nothing else is reported of the module."""
    told = {it[1:3] for it in yields if it[0] == 'fault' and not is_nested(it)}
    return {it for it in yields if not (is_nested(it) and it[1:3] in told)}


def largest(closure, found):
    """The largest set of demands that gives nothing but what was found, and covers what follows from its members."""
    told = {it[1:3] for it in found if it[0] == 'fault' and not is_nested(it)}

    def may_be(it):
        return it in found or (is_nested(it) and it[1:3] in told)

    kept = {demand for demand, (_, yields) in closure.results.items() if all(map(may_be, yields))}
    while True:
        cover = Cover(kept)
        left = {demand for demand in kept if all(map(cover.has, closure.results[demand][0]))}
        if left == kept:
            return kept
        kept = left


def is_account(closure, kept):
    cover = Cover(kept)
    urls = {demand[2] for demand in kept if demand[0] == 'module'}
    return closure.roots <= kept and all(map(cover.is_widened, urls))


def mismatch(world, closure, found, packages):
    """None where an account gives exactly what was found, and these packages; else what is wrong."""
    refused = [it for it in found if it[0] == 'refused']
    if refused:
        return None if found <= closure.yielded() else 'no package refuses this export'
    everything = closure.yielded()
    if not found <= everything:
        return 'not demanded: %s' % sorted(map(str, found - everything))
    kept = largest(closure, found)
    given = closure.yielded(kept)
    if not is_account(closure, kept):
        return 'no account; all demands give besides %s' % sorted(map(str, everything - found))
    if not found <= given:
        return 'not demanded in an account: %s' % sorted(map(str, found - given))
    if not without_nested(given) <= found:
        return 'not found: %s' % sorted(map(str, without_nested(given) - found))
    keys = {it[1] for it in found}
    entered = {d[1] for d in kept if d[0] == 'package' and world.exports_of(d[1]) is not None}
    if not keys <= set(packages) or not set(packages) <= keys | entered:
        return 'the packages are %s' % packages
    return None
