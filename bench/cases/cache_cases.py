"""The part `caches` of `fast_check_vectors`: under which keys caches in memory are asked, and what they answer. The hashes are computed here anew."""

BASIS, PRIME, END = 14695981039346656037, 1099511628211, 255
RULES, OWN = "0.111.1-single-return", "example 1"
MODULE, MORE = "https://host.example/hello/mod.ts", "https://host.example/hello/more.ts"


def hash_of(seed, name, version=(1, 20, 300), pre="", build="", urls=(MODULE, MORE)):
    """The hash of a seed, a package and its entry points: of the bytes of each text with an end behind them, and of the numbers of the version."""
    numbers = []
    for part in (seed, name, *version, pre, build, *sorted(urls)):
        numbers += [*part.encode(), END] if isinstance(part, str) else [part]
    hashed = BASIS
    for number in numbers:
        hashed = (hashed * PRIME + number) % 2**64
    return hashed


def key(own, name):
    """The key of a package in a cache that gives this seed, and under which of the two seeds it is the hash."""
    yield f"  {name}@1.20.300 under the seed {own}: {hash_of(own, name)}"
    for seed in (RULES, OWN):
        yield f"    is the hash under {seed}: {'true' if seed == own else 'false'}"


def cache(own):
    for name in ("@example/hello", "@example/world"):
        yield from key(own, name)
    kept = ["    depends on @example/world@1.20.300", f"    {MODULE} has a"]
    yield from ["  before a set", "    nothing"]
    yield from ["  after a set", kept[0], kept[1] + " skeleton of the source 7", "    is what was set: true"]
    yield from ["  after another set under the key", kept[0], kept[1] + " diagnostic of the source 8"]
    yield from ["  under another key", "    nothing"]


def part():
    """What the part prints: a cache with the seed of the rules, and one with a seed of its own."""
    lines = ["a cache with the seed of the rules", *cache(RULES), "a cache with a seed of its own", *cache(OWN)]
    return {}, "".join(line + "\n" for line in lines)
