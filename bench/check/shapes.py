"""How the time of `build` grows with workspaces as they are, and what hostile tables of 100 KB take.

A line for each shape of a workspace: the largest number, its megabytes, the status, the processor seconds of three sizes (each twice the one before; of three
runs the quickest), the bytes held a byte of the largest, and the exponent by which seconds grow with bytes, fitted to the three. An exponent above 1.2 is
too much.

A line for each hostile shape (`bench/cases/hostile_shapes.py`): the largest number of which it has at most 100 KB, its kilobytes, the status, the processor
seconds and the megabytes held. More than 5 seconds or 500 MB are too much. A run that ends by a signal is too much anyway.

Usage: python3 -m bench shapes PROGRAM [SHAPE ..]
"""
import json
import sys

from bench.cases import hostile_cases, hostile_shapes
from bench.check.growth import MOST_EXPONENT, exponent, measured, row, spent
from bench.check.tables import by_name, chain_to, definition, exports_of, file_ref, import_type, module, part, request, single, symbol, url

HOSTILE_BYTES, MOST_SECONDS, MOST_BYTES_HELD = 100_000, 5, 500_000_000


def packages_of_ten_modules(n):
    """Packages in a ring, of ten modules each: the entry point exports all of the others, and each of these asks the next package for a name."""
    return request(*(each for p in range(n) for each in ten_modules(p, url(0, (p + 1) % n))), packages=n)


def ten_modules(package, other):
    """An entry point and nine modules, each of which asks another module for its name."""
    inner = [module(url(i, package), [symbol(1, file_ref(other, "s1"), name=f"n{i}")], [[f"n{i}", 1]]) for i in range(1, 10)]
    entry = module(url(0, package), [symbol(1, definition())], [["s1", 1]], again=[url(i, package) for i in range(1, 10)])
    return [entry, *inner]


def symbols_of_a_module(n):
    """A module of many symbols, of which each mentions the next."""
    return single([symbol(i, definition(by_name(f"s{i % n + 1}"))) for i in range(1, n + 1)], [["s1", 1]])


def names_behind_a_barrel(n):
    """A barrel that exports all of many modules of ten names each, and modules that ask the barrel for a hundred of these names each."""
    inner = [module(url(f"i{i}"), [symbol(j, definition(), name=f"n{i}_{j}") for j in range(1, 11)], [[f"n{i}_{j}", j] for j in range(1, 11)]) for i in range(n)]
    asks = [asking(i, [f"n{k}_{j}" for k in range(10 * i, min(10 * i + 10, n)) for j in range(1, 11)]) for i in range((n + 9) // 10)]
    return request(entry_of(len(asks)), *asks, barrel(inner), *inner)


def asking(place, names):
    """A module that asks the barrel for names."""
    return module(url(f"a{place}"), [symbol(1, definition(*(import_type(url("barrel"), name) for name in names)))], [["s1", 1]])


def entry_of(count):
    """An entry point that exports all of the modules that ask."""
    return module(url(0), [], [], again=[url(f"a{i}") for i in range(count)])


def barrel(modules):
    """A module that exports all of others."""
    names = [[name, at] for at, made in modules for name, _ in made["Esm"]["resolved_exports"]]
    return module(url("barrel"), [], [], again=[at for at, _ in modules], resolved_exports=names)


def barrels_in_one_another(n):
    """Fifty barrels, of which each exports all of the next, and behind the last one a module of many names, each of which is asked of the first."""
    names, last = [f"s{i}" for i in range(1, n + 1)], url("last")
    resolved = [[name, last] for name in names]
    levels = [module(url(f"b{i}"), [], [], again=[url(f"b{i + 1}") if i < 49 else last], resolved_exports=resolved) for i in range(50)]
    asks = [symbol(i, file_ref(url("b0"), name)) for i, name in enumerate(names, 1)]
    return request(module(url(0), asks, exports_of("s", n)), *levels, module(last, [symbol(i, definition()) for i in range(1, n + 1)], exports_of("s", n)))


def names_one_by_one(n):
    """A chain of modules, each of which asks one module for one name more."""
    return chain_to(n, lambda i: [f"s{i}"], module(url("m"), [symbol(i, definition()) for i in range(1, n + 1)], exports_of("s", n)))


def members_of_a_class(n):
    """Members that are asked for by `C.prototype.m`."""
    inside = [symbol(i, definition(is_member=True), parent=1) for i in range(2, n + 2)]
    asks = [symbol(i + n, part("s1", "prototype", f"s{i}")) for i in range(2, n + 2)]
    return single([symbol(1, definition(is_class=True), members=list(range(2, n + 2))), *inside, *asks], [[f"s{i + n}", i + n] for i in range(2, n + 2)])


def modules_that_share_types(n):
    """Modules that each ask one module for a type. Its five hundred types lead to one another."""
    types = [symbol(i, definition(by_name(f"s{i % 500 + 1}"))) for i in range(1, 501)]
    asks = [module(url(f"a{i}"), [symbol(1, file_ref(url("types"), f"s{i % 500 + 1}"), name=f"t{i}")], [[f"t{i}", 1]]) for i in range(n)]
    return request(entry_of(n), *asks, module(url("types"), types, exports_of("s", 500)))


def modules_of_their_own_barrel(n):
    """Modules behind a barrel, each of which asks the barrel for the name of the next module."""
    inner = [module(url(f"i{i}"), [symbol(1, definition(import_type(url("barrel"), f"n{(i + 1) % n}")), name=f"n{i}")], [[f"n{i}", 1]]) for i in range(n)]
    return request(module(url(0), [], [], again=[url("barrel")]), barrel(inner), *inner)


def members_of_a_workspace(n):
    """Members of a workspace of ten files each, each of which asks the next member for a name."""
    base = lambda p: f"file:///w{p}/"
    at = lambda p, i: f"{base(p % n)}{i}.ts"
    inner = lambda p, i: module(at(p, i), [symbol(1, file_ref(at(p + 1, 0), "s1"), name=f"n{i}")], [[f"n{i}", 1]])
    entry = lambda p: module(at(p, 0), [symbol(1, definition())], [["s1", 1]], again=[at(p, i) for i in range(1, 10)])
    made = request(*(each for p in range(n) for each in (entry(p), *(inner(p, i) for i in range(1, 10)))))
    made["graph"]["packages"] = []
    members = [{"name": f"@w/w{p}", "base": base(p), "version": "1.0.0", "exports": [[".", "./0.ts"]]} for p in range(n)]
    return {**made, "workspace_members": members, "pending": [f"@w/w{p}@1.0.0" for p in range(n)]}


def packages_by(n, next_of):
    each = lambda p: module(url(0, p), [symbol(1, file_ref(url(0, next_of(p)), "s1"))], [["s1", 1]])
    return request(*map(each, range(n)), packages=n)


def packages_in_a_chain(n):
    return packages_by(n, lambda p: min(p + 1, n - 1))


def packages_in_a_ring(n):
    return packages_by(n, lambda p: (p + 1) % n)


# The shapes of workspaces, each with its largest number.
WORKSPACES = {
    packages_of_ten_modules: 1000, symbols_of_a_module: 100_000, names_behind_a_barrel: 1000, barrels_in_one_another: 10_000, names_one_by_one: 10_000,
    members_of_a_class: 16_000, modules_that_share_types: 1000, modules_of_their_own_barrel: 1000, members_of_a_workspace: 1000,
    packages_in_a_chain: 8000, packages_in_a_ring: 8000,
}
HOSTILE = {shape: getattr(hostile_shapes, shape) for _, shape, _, _ in hostile_cases.stated() if hasattr(hostile_shapes, shape)}
SHAPES = {**{made.__name__: made for made in WORKSPACES}, **HOSTILE}


def measure_workspace(program, made):
    """Prints the line of a shape of a workspace. Answers whether it grows as it may."""
    largest = WORKSPACES[made]
    runs = [spent(program, made(n)) for n in (largest // 4, largest // 2, largest)]
    grows = exponent([(size, seconds) for size, _, seconds, _ in runs])
    is_good = grows <= MOST_EXPONENT and all(status in (0, 1) for _, status, _, _ in runs)
    print(row(made.__name__, largest, runs, grows, "" if is_good else "  too much"), flush=True)
    return is_good


def bytes_of(made):
    return len(json.dumps(made, separators=(",", ":")))


def largest_number(made):
    """The largest number of which a shape has at most 100 KB."""
    below, above = 1, 2
    while bytes_of(made(above)) <= HOSTILE_BYTES:
        below, above = above, 2 * above
    while below + 1 < above:
        middle = (below + above) // 2
        below, above = (middle, above) if bytes_of(made(middle)) <= HOSTILE_BYTES else (below, middle)
    return below


def measure_hostile(program, made):
    """Prints the line of a hostile shape of 100 KB. Answers whether it takes what it may."""
    n = largest_number(made)
    size, status, seconds, held = spent(program, made(n), runs=1)
    is_good = status in (0, 1, 2) and seconds <= MOST_SECONDS and held <= MOST_BYTES_HELD
    print(f"{made.__name__:52} {n:8} {size / 1e3:8.0f} KB {status:4} {seconds:8.2f} s {held / 1e6:8.0f} MB{'' if is_good else '  too much'}", flush=True)
    return is_good


def measure(program, name):
    made = SHAPES[name]
    return measure_workspace(program, made) if made in WORKSPACES else measure_hostile(program, made)


if __name__ == "__main__":
    sys.exit(measured(sys.argv[1:], __doc__, SHAPES, measure, "shapes", "above"))
