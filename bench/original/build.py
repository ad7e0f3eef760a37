"""Builds the original fast check of deno_graph 0.111.1 over shims of the crates below it: OUT/original, and OUT/explain with the listed differences.

usage: build.py CRATE OUT              or with --coverage: OUT/covered alone, which notes the blocks that it reaches, for coverage.py

CRATE is the folder of the crate's source, as `cargo fetch` lays it out (its files `src/fast_check/*.rs` are read). Rust 1.88 or newer and Debian's
packages librust-{url,indexmap,serde,serde-derive,serde-json,thiserror,semver}-dev are needed, and no network. OUT/source is what was compiled: compare it
with the crate.
"""
import argparse
import os
import shutil
import subprocess
import sys
from pathlib import Path

from bench.original import patches

HERE = Path(__file__).resolve().parent
FILES = ("cache", "mod", "range_finder", "swc_helpers", "transform")
REGISTRY = '[source.crates-io]\nreplace-with = "debian"\n[source.debian]\ndirectory = "/usr/share/cargo/registry"\n'


def lay_out(crate, folder, applied, counts=False):
    """The shims, the tree's nodes and the copy of the original, which counts its blocks."""
    shutil.rmtree(folder / "host/src", ignore_errors=True)
    for part in ("shims", "host"):
        shutil.copytree(HERE / part, folder / part, dirs_exist_ok=True)
    nodes = folder / "shims/deno_ast/src/nodes.rs"
    made = subprocess.run([sys.executable, HERE / "nodes.py"], stdout=subprocess.PIPE, check=True).stdout
    if not nodes.exists() or nodes.read_bytes() != made:
        nodes.write_bytes(made)
    copy = folder / "host/src/fast_check"
    copy.mkdir()
    for name in FILES:
        shutil.copy(crate / f"src/fast_check/{name}.rs", copy)
        if counts:
            (copy / f"{name}.rs").write_text(patches.counted(f"{name}.rs", (copy / f"{name}.rs").read_text()))
    os.replace(folder / "host/src/transform_dts.rs", copy / "transform_dts.rs")
    patches.apply(applied, copy)


def compile_to(folder, program):
    config = folder / "host/.cargo/config.toml"
    config.parent.mkdir(exist_ok=True)
    config.write_text(REGISTRY)
    env = {**os.environ, "CARGO_HOME": str(folder / "cargo")}
    words = ["cargo", "build", "--release", "--offline", "--quiet", "--target-dir", str(folder / "target")]
    if subprocess.run(words, cwd=folder / "host", env=env).returncode:
        sys.exit("build.py: cargo compiles nothing")
    shutil.copy(folder / "target/release/original", program)


def main():
    parser = argparse.ArgumentParser(usage=__doc__)
    parser.add_argument("crate", type=Path)
    parser.add_argument("out", type=Path)
    parser.add_argument("--coverage", action="store_true")
    args = parser.parse_args()
    out = args.out.resolve()
    out.mkdir(parents=True, exist_ok=True)
    if not (args.crate / "src/fast_check/mod.rs").is_file():
        sys.exit(f"build.py: {args.crate} has no src/fast_check/mod.rs: it has to be the source of deno_graph 0.111.1")
    lay_out(args.crate, out, patches.NEEDED, args.coverage)
    if args.coverage:
        compile_to(out, out / "covered")
        return
    shutil.copytree(out / "host/src/fast_check", out / "source", dirs_exist_ok=True)
    compile_to(out, out / "original")
    lay_out(args.crate, out, patches.NEEDED + patches.DIFFERENCES)
    compile_to(out, out / "explain")


if __name__ == "__main__":
    main()
