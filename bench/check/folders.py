"""Hostile folders: how time and memory of `fast-check-source` grow with the bytes of a folder.

usage: python3 -m bench folders PROGRAM [KB] [SHAPE ..]     folders of so many KB (100), and of ten times as many

Each shape is a package that a stranger may hand to a registry: many re-exports of all, maps of imports, blocks of a namespace, faults, missing files.
Prints a line for each: seconds of processor and MB held at both sizes, and the exponent between them. The status is 1 where 100 KB take more than a
second or 100 MB, or 1 MB more than five seconds.
"""
import json
import math
import os
import resource
import shutil
import subprocess
import sys
import tempfile
from pathlib import Path

# What a run may take, by the KB of its folder: seconds of processor, and MB.
BARS = {100: (1.0, 100.0), 1000: (5.0, None)}


def exports_of(paths):
    return json.dumps({"name": "@test/a", "version": "1.0.0", "exports": {"." if at == 0 else f"./{path}": f"./{path}" for at, path in enumerate(paths)}})


def package(files, entries=("mod.ts",), **more):
    config = json.loads(exports_of(entries))
    return {"deno.json": json.dumps({**config, **more}), **files}


def stars(size):
    """Each of n modules exports all of all."""
    n = int(math.sqrt(size / 26))
    text = "".join(f'export * from "./m{at}.ts";\n' for at in range(n))
    return package({f"m{at}.ts": f"{text}export const a{at}: number = 1;\n" for at in range(n)}, ["m0.ts"])


def later_stars(size):
    """Each of n modules exports all of those after it."""
    n = int(math.sqrt(size / 13))
    return package({f"m{at}.ts": "".join(f'export * from "./m{to}.ts";\n' for to in range(at + 1, n)) + f"export const a{at}: number = 1;\n" for at in range(n)}, ["m0.ts"])


def chain(size, end=""):
    """A chain of modules, each of which exports all of the next one."""
    n = size // 60
    files = {f"m{at}.ts": f'export * from "./m{at + 1}.ts";\nexport const a{at}: number = 1;\n' for at in range(n - 1)}
    return package({**files, f"m{n - 1}.ts": end or "export const z: number = 1;\n"}, ["m0.ts"])


def asked_chain(size):
    """The same, where a module asks for a name of its end."""
    made = chain(size)
    return {**made, "deno.json": exports_of(["ask.ts"]), "ask.ts": 'export { z } from "./m0.ts";\n'}


def ring(size):
    n = size // 60
    return chain(size, f'export * from "./m0.ts";\nexport const a{n}: number = 1;\n')


def barrel(size):
    """A module that exports all of others, each of which leads back to it."""
    n = size // 85
    files = {f"m{at}.ts": f'export * from "./mod.ts";\nexport const a{at}: number = 1;\n' for at in range(n)}
    return package({**files, "mod.ts": "".join(f'export * from "./m{at}.ts";\n' for at in range(n))})


def members(size):
    """A ring of the members of a workspace."""
    n = size // 150
    files = {f"p{at}/deno.json": json.dumps({"name": f"@t/p{at}", "version": "1.0.0", "exports": "./mod.ts"}) for at in range(n)}
    files.update({f"p{at}/mod.ts": f'export * from "@t/p{(at + 1) % n}";\nexport const a{at}: number = 1;\n' for at in range(n)})
    return {"deno.json": json.dumps({"workspace": [f"./p{at}" for at in range(n)]}), **files}


def namespaces(size):
    """One namespace in n blocks, each with a name of its own."""
    return package({"mod.ts": "".join(f"export namespace N {{ export const a{at}: number = 1; }}\n" for at in range(size // 54))})


def one_namespace(size):
    """One namespace in n blocks, each with the same name."""
    return package({"mod.ts": "export namespace N { export interface A { a: B } }\n" * (size // 51)})


def import_map(size):
    n = size // 70
    text = "".join(f'import {{ a as a{at} }} from "i{at}";\n' for at in range(n))
    return package({"mod.ts": f"{text}export {{ a0 }};\n", "m.ts": "export const a: number = 1;\n"}, imports={f"i{at}": "./m.ts" for at in range(n)})


def patterns(size):
    """A `*` in each key of a map of imports."""
    n = size // 75
    text = "".join(f'import {{ a as a{at} }} from "#i{at}/x";\n' for at in range(n))
    config = {"name": "a", "version": "1.0.0", "exports": "./mod.ts", "imports": {f"#i{at}/*": "./m.ts" for at in range(n)}}
    return {"package.json": json.dumps(config), "mod.ts": f"{text}export {{ a0 }};\n", "m.ts": "export const a: number = 1;\n"}


def paths(size):
    n = size // 75
    text = "".join(f'import {{ a as a{at} }} from "i{at}";\n' for at in range(n))
    config = json.dumps({"compilerOptions": {"paths": {f"i{at}": ["./m.ts"] for at in range(n)}}})
    return package({"mod.ts": f"{text}export {{ a0 }};\n", "m.ts": "export const a: number = 1;\n", "tsconfig.json": config})


def suffixes(size):
    n = size // 40
    text = "".join(f'import "./m{at}";\n' for at in range(n))
    config = json.dumps({"compilerOptions": {"moduleSuffixes": [f".s{at}" for at in range(n)]}})
    return package({"mod.ts": text, "tsconfig.json": config})


def missing_entries(size):
    """Entry points that are not there, beside one that is."""
    n = size // 25
    return package({"mod.ts": "export const a: number = 1;\n"}, ["mod.ts", *(f"e{at}.ts" for at in range(n))])


def faults(size):
    """Entry points with an error each."""
    n = size // 55
    return package({f"m{at}.ts": "export const a = f();\n" for at in range(n)}, [f"m{at}.ts" for at in range(n)])


def missing_modules(size):
    return package({"mod.ts": "".join(f'import "./m{at}.ts";\n' for at in range(size // 20))})


def targets(size):
    """Targets of an assignment that nest 150 deep, with long values in them."""
    value = "[" + "1," * (size // 2) + "]"
    return package({"mod.ts": f"let x: any, y: any;\nx = {'{a:' * 150}{{ b: x = {value} }}{'}' * 150} = y;\nexport const a: number = 1;\n"})


def interfaces(size):
    """One interface that is written n times."""
    return package({"mod.ts": "".join(f"export interface A {{ a{at}: B{at} }}\n" for at in range(size // 38))})


def overloads(size):
    return package({"mod.ts": "".join(f"export function f(a: {at}): {at};\n" for at in range(size // 36)) + "export function f(a: any): any {}\n"})


SHAPES = [stars, later_stars, chain, asked_chain, ring, barrel, members, namespaces, one_namespace, import_map, patterns, paths, suffixes, missing_entries, faults,
          missing_modules, targets, interfaces, overloads]


def measure(program, files):
    """Seconds of processor, MB held and the status of a run on a folder of these files."""
    with tempfile.TemporaryDirectory() as name:
        for path, text in files.items():
            file = Path(name, path)
            file.parent.mkdir(parents=True, exist_ok=True)
            file.write_text(text)
        with open(os.devnull, "wb") as nothing:
            begun = subprocess.Popen([program, name], stdin=subprocess.DEVNULL, stdout=nothing, stderr=subprocess.DEVNULL,
                                     preexec_fn=lambda: resource.setrlimit(resource.RLIMIT_CPU, (120, 120)))
            _, status, usage = os.wait4(begun.pid, 0)
            begun.returncode = os.waitstatus_to_exitcode(status)
    return usage.ru_utime + usage.ru_stime, usage.ru_maxrss / 1024, begun.returncode


def main(words):
    if not words or not shutil.which(words[0]):
        print(__doc__.strip(), file=sys.stderr)
        return 2
    program = str(Path(shutil.which(words[0])).resolve())
    small = int(words[1]) if len(words) > 1 and words[1].isdigit() else 100
    names = [it for it in words[1:] if not it.isdigit()]
    worst = 0
    print(f"{'shape':16} {small:6} KB{'':15}{small * 10:6} KB{'':15}exponent")
    for shape in SHAPES:
        if names and shape.__name__ not in names:
            continue
        sizes, found = [], []
        for size in (small, small * 10):
            files = shape(size * 1000)
            sizes.append(sum(len(it) for it in files.values()))
            found.append(measure(program, files))
        (first, held, status), (second, more, last) = found
        exponent = math.log(max(second, 0.01) / max(first, 0.01)) / math.log(sizes[1] / sizes[0])
        is_slow = any(bar and value > bar for size, run in zip((small, small * 10), found) for bar, value in zip(BARS.get(size, (None, None)), run))
        worst |= is_slow
        print(f"{shape.__name__:16} {first:7.2f} s {held:7.0f} MB {status:2}  {second:7.2f} s {more:7.0f} MB {last:2}  {exponent:5.2f}{'  slow' if is_slow else ''}", flush=True)
    return int(worst)


if __name__ == "__main__":
    sys.exit(main(sys.argv[1:]))
