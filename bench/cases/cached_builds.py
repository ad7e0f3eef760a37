"""The part `cached_builds` of `fast_check_vectors`: builds with a cache, one after the other. What is answered and what is set is put together here by
`build_worlds` and by what docs/proofs/rules.md says of the cache."""
import json

from bench.cases import build_files
from bench.cases.cache_cases import OWN, RULES, hash_of
from bench.check import random_builds
from bench.oracle.build_worlds import Module, World, sources_of
from bench.oracle.items import let
from bench.oracle.package_accounts import Closure, without_nested
from bench.oracle.package_rules import World as Rules, join, order_of
from bench.oracle.package_worlds import nv_of, url_of
from bench.oracle.trees import lit

NODES = ("Js", "Json", "Wasm")
# random workspaces by their seeds, each with a package whose sources are changed: it is found again beside others whose items are used. In all but the
# last three that shows less or other things of it, since some of it was asked for by modules of the others alone
CHANGED = [(4117, "p"), (4121, "r"), (4151, "q"), (4306, "p"), (4365, "q"), (4371, "r"), (4391, "q"), (4100, "q"), (4111, "p"), (4128, "r")]


def world_of(name):
    """The world of a build that is a file."""
    return build_files.files()[name].world


class Refused(Exception):
    """A call of the cache has no memory."""


class Cache:
    def __init__(self, own_seed=False, one_key=False, refused_get=None, refused_set=None, items=()):
        self.seed, self.one_key, self.refused_get, self.refused_set = OWN if own_seed else RULES, one_key, refused_get, refused_set
        self.stored = {self.key(nv, urls): (list(needs), []) for nv, urls, needs in items}
        self.asked = self.set = 0

    def key(self, nv, urls):
        name, version = nv.rsplit("@", 1)
        return 7 if self.one_key else hash_of(self.seed, name, map(int, version.split(".")), urls=urls)

    def get(self, key):
        self.asked += 1
        if self.asked == self.refused_get:
            raise Refused
        return self.stored.get(key)

    def put(self, key, item):
        self.set += 1
        if self.set == self.refused_set:
            raise Refused
        self.stored[key] = item


def hashes(request):
    """The hash of each module's source in the graph."""
    found = {}
    for url, node in request["graph"]["modules"]:
        found[url] = next(((node[kind] or {}).get("source_hash") or 0 for kind in NODES if isinstance(node, dict) and kind in node), 0)
    return found


def with_hashes(world, changed=None, **of):
    """A world with hashes of the sources of modules: of those of one name, as `m1` of `p/m1.ts`, or else counted from 11. Those of a package that
    is changed are others."""
    for number, (url, node) in enumerate(sorted(world.parts["graph"]["modules"], key=lambda it: it[0]), 11):
        is_changed = changed and url.startswith(url_of(changed + "/"))
        for kind in NODES:
            if isinstance(node, dict) and kind in node:
                node[kind] = {**(node[kind] or {}), "source_hash": of.get(url.split("/")[-1].split(".")[0], 100 * bool(is_changed) + number)}
    return world


class Entered(Rules):
    """The rules of a world in which some packages are entered alone. Of these some need what their items say, and nothing else."""

    def __init__(self, parts, entered, needs):
        super().__init__(parts)
        self.entered, self.needs = entered, needs

    def of_package(self, nv):
        if nv in self.needs:
            return [("package", needed) for needed in self.needs[nv]], []
        return super().of_package(nv) if nv in self.entered else ([], [])


class Built:
    """A build: what is followed with what is used, and then what is answered and set."""

    def __init__(self, world, cache):
        self.world, self.cache, self.hashes, self.used = world, cache, hashes(world.request()), {}
        self.answers, self.sets, self.fault = [], [], None
        try:
            self.yields = self.follow()
            if any(it[0] == "refused" for it in self.yields):
                self.fault = "invalid-export"
            else:
                self.answer()
        except Refused:
            self.answers, self.fault = [], "out of memory"

    def is_usable(self, item):
        return item is not None and all(hash == self.hashes.get(url, 0) for _, hash, url, _ in item[1])

    def follow(self):
        """What is yielded, once each package that follows was entered: by its item, if that is used."""
        entered = set()
        while True:
            rules = Entered(self.world.rules(), entered, {nv: item[0] for nv, (_, item) in self.used.items()})
            closure = Closure(rules)
            new = sorted({demand[1] for demand in closure.results if demand[0] == "package"} - entered, key=order_of)
            if not new:
                return without_nested(closure.yielded())
            entered.add(new[0])
            texts = rules.exports_of(new[0])
            if texts is not None and all(join(rules.base_of(new[0]), text) for text in texts):
                self.look_up(new[0], sorted(set(rules.entry_points(new[0]))))

    def look_up(self, nv, urls):
        item = self.cache.get(self.cache.key(nv, urls))
        if self.is_usable(item):
            self.used[nv] = urls, item

    def answer(self):
        of = lambda nv: [(it[0], *it[2:]) for it in self.yields if it[1] == nv]
        for nv in sorted({it[1] for it in self.yields} | set(self.used), key=order_of):
            urls, (needs, modules) = self.used.get(nv, (None, (None, [])))
            if modules:
                self.answers += [(url, [f"cached of {url}"] if tree is None else [], tree) for _, _, url, tree in modules]
            elif nv in self.used:
                self.find(nv, of(nv) + [("entry", url) for url in urls] + [("depends", needed) for needed in needs])
            else:
                self.find(nv, of(nv))

    def find(self, nv, yields):
        """A package that is not used: its answer, and its item."""
        tried = list(self.world.tried(yields, ""))
        front = next((place for place, (_, _, faults) in enumerate(tried) if faults), len(tried))
        told = [fault for _, _, faults in (tried[front:front + 1] if self.world.first else tried) for fault in faults]
        shown = [(url, [sources_of(made[1].items), made[1].items]) for url, made, _ in tried[:front] if made]
        wrong = [fault["specifier"] for fault in told]
        kept = [self.kept(url, None if told else tree) for url, tree in shown] + [self.kept(url, None) for url in wrong]
        urls = sorted({it[1] for it in yields if it[0] == "entry"})
        self.keep(nv, urls, (sorted({it[1] for it in yields if it[0] == "depends"}, key=order_of), kept))
        codes = [f"{fault['code']} of {fault['specifier']}" for fault in told]
        self.answers += [(url, codes, None) for url in urls] if told else [(url, [], tree) for url, tree in shown]

    def kept(self, url, tree):
        return "diagnostic" if tree is None else "skeleton", self.hashes.get(url, 0), url, tree

    def keep(self, nv, urls, item):
        key = self.cache.key(nv, urls)
        self.cache.put(key, item)
        self.sets.append((key, item))

    # ---- what is printed

    def skeletons(self):
        return [(url, tree) for url, _, tree in self.answers if tree is not None]

    def lines(self, plain):
        """`plain` has the skeletons that come without a cache."""
        for url, codes, tree in self.answers:
            shown = "the skeleton" if (url, tree) in plain else "another skeleton"
            yield f"    answers {url}: " + (shown if tree is not None else " ".join(codes))
        if self.fault:
            yield f"    {self.fault}"
        for key, (needs, modules) in self.sets:
            words = [f"needs {nv}" for nv in needs] + [f"{kind} {hash} of {url}" for kind, hash, url, _ in modules]
            yield f"    sets {key}:" + "".join(" " + word for word in words)


def cached(name, pending=None, first=False, changed=None, **of):
    """The world of a file of the folder `cached`, with hashes: three modules of one package, with two faults in m2 or `sound`; a `pair` of packages, of which
    p exports all of q; `re_exported`, where q has an entry point of JSON alone and p exports one name of another module of q, through a re-export of all of it;
    `four` packages, of which p exports all of q, which has a fault, and r all of s."""
    world = build_files.files("cached")[name].world
    world.first = first
    world.parts["pending"] = list(map(nv_of, pending)) if pending else world.parts["pending"]
    return with_hashes(world, changed, **of)


def chained(count):
    """A member of the workspace of any version, and items by which each of so many versions needs the next one. What comes is stated here: the
    items have no modules, so each build sets them again; that of the version behind them has one, so the second build uses it."""
    url, versions = "file:///w/mod.ts", [f"@w/w@{version}.0.0" for version in range(1, count + 2)]
    world = World({}, Module(url, let("x", value=lit("1"))), members=[("@w/w", None, "file:///w/", ["./mod.ts"])], pending=versions[:1])
    world.parts["pending"] = versions[:1]
    needs = list(zip(versions, versions[1:]))
    answered = f"    answers {url}: the skeleton"
    sets = [f"    sets {Cache().key(nv, [url])}: needs {needed}" for nv, needed in needs]
    last = f"    sets {Cache().key(versions[-1], [url])}: skeleton 0 of {url}"
    lines = ["  build", answered, *sets, last, "  build", answered, *sets]
    return {"items": [[nv, [url], [needed]] for nv, needed in needs]}, [world, world], lines


def bare(name):
    """The world of a file of the folder `cached` without hashes."""
    return build_files.files("cached")[name].world


def gone():
    """A package of one module, which the graph and the tables lack."""
    world = bare("single")
    world.parts["graph"]["modules"], world.parts["modules"], world.modules = [], [], []
    return world


def sound(*changed):
    """The modules without faults; the sources of these were changed."""
    return cached("sound", **dict.fromkeys(changed, 99))


def refused(name, traits, worlds):
    """Builds of which the first `get` is refused, then the second, and so on, until a run meets no refusal; and so with each `set`."""
    for kind in ("get", "set"):
        number, is_met = 0, True
        while is_met:
            number += 1
            cache = Cache(**traits, **{f"refused_{kind}": number})
            told = [Built(world, cache).fault for world in worlds]
            is_met = "out of memory" in told
            if is_met != (number <= {"get": cache.asked, "set": cache.set}[kind]) or told.count("out of memory") > 1:
                raise SystemExit(f"{name}: {kind} {number} is not refused once")
            yield f"of_{name}_{kind}_{number}_is_{'refused' if is_met else 'not_met'}", {**traits, f"refused_{kind}": number}, worlds


def runs():
    """Each run: its name, the cache, and the worlds that are built with it."""
    needed = {"items": [[nv_of("p"), [url_of("p/mod.ts")], [nv_of("q")]]]}
    yield "a_fault_in_the_second_of_three_modules", {}, [cached("three"), cached("three")]
    yield "the_first_fault_alone", {}, [cached("three", first=True), cached("three", first=True)]
    yield "three_modules_without_fault", {}, [sound(), sound()]
    for name in ("m1", "m2", "m3"):
        yield f"the_hash_of_{name}_is_changed", {}, [sound(), sound(name), sound(name)]
    yield "the_hash_of_the_last_diagnostic_is_changed", {}, [cached("three"), cached("three", m2=99), cached("three", m3=99)]
    yield "an_entry_point_that_the_graph_lacks", {}, [bare("none_there"), bare("none_there")]
    yield "two_packages_of_one_key", {"one_key": True}, [cached("pair"), cached("pair")]
    yield "two_packages", {}, [with_hashes(world_of("build_canvas")), with_hashes(world_of("build_canvas"))]
    yield "two_entry_points_with_faults", {}, [with_hashes(world_of("build_faults_of_two_entry_points")), with_hashes(world_of("build_faults_of_two_entry_points"))]
    yield "a_cache_with_a_seed_of_its_own", {"own_seed": True}, [cached("three"), cached("three")]
    yield "an_item_without_modules", needed, [cached("pair", ["p"]), cached("pair", ["p"])]
    # the item of q is made where nothing asks for its module; the second build answers the module as without a cache, and sets it
    yield "an_item_without_modules_of_a_package_whose_module_another_exports", {}, [cached("re_exported", [word]) for word in "qpp"]
    yield "the_second_get_is_refused", {"refused_get": 2}, [cached("pair"), cached("pair"), cached("pair")]
    yield "the_second_set_is_refused", {"refused_set": 2}, [cached("pair"), cached("pair"), cached("pair")]
    yield "a_refused_set_leaves_the_item_that_was_there", {"refused_set": 2}, [sound(), sound("m2"), sound()]
    yield "a_module_of_hash_0_that_the_graph_lacks_later", {}, [bare("single"), gone()]
    yield "a_module_of_hash_1_that_the_graph_lacks_later", {}, [cached("single", mod=1), gone()]
    yield "an_export_that_does_not_join", {}, [bare("unjoined")]
    # the second build finds the package again whose source is changed, by an item of which one hash is another, takes the fault of q from its item, and sets
    # the item without modules again; the third takes the new item of p as well
    without_modules = {"items": [[nv_of("r"), [url_of("r/mod.ts")], [nv_of("s")]]]}
    yield from refused("four_packages", without_modules, [cached("four"), cached("four", changed="p"), cached("four", changed="p")])
    yield from refused("two_packages_of_three_modules", {}, [with_hashes(world_of("build_canvas"))] * 2)
    for seed in range(30):
        world = with_hashes(random_builds.Writer(4000 + seed).world())
        yield f"a_random_workspace_{seed}", {}, [world, world]
    for seed, changed in CHANGED:
        worlds = [with_hashes(random_builds.Writer(seed).world(), each) for each in (None, changed)]
        yield f"a_random_workspace_{seed}_of_which_{changed}_is_changed", {}, worlds


def built_in_turn(traits, worlds):
    """What is printed of builds with one cache."""
    cache = Cache(**traits)
    for world in worlds:
        yield "  build"
        plain = Built(world, Cache()).skeletons()
        yield from Built(world, cache).lines(plain)


def request(name, traits, worlds):
    """A run, with a world that is built again and again stated once."""
    builds = [world.request() for world in worlds]
    is_one = builds == builds[:1] * len(builds)
    return {"name": name, **traits, **({"times": len(builds), "builds": builds[:1]} if is_one else {"builds": builds})}


def part():
    stated = [(*run, list(built_in_turn(*run[1:]))) for run in runs()]
    stated.append(("a_thousand_items_of_which_each_needs_the_next", *chained(1000)))
    lines = [line for name, _, _, told in stated for line in (f"run {name}", *told)]
    files = {"cached_builds": "".join(json.dumps(request(*run[:3]), separators=(",", ":")) + "\n" for run in stated)}
    return files, "".join(line + "\n" for line in lines)


if __name__ == "__main__":
    files, printed = part()
    print(printed, end="")
