#!/usr/bin/env bash
# Builds a driver of bench/time/drivers/NAME, as PROGRAM: it is made a crate of a scratch copy, and proved over the libraries that are built. The drivers
# are no crates of the repository, since all that they show is shown by runs; the benches measure by them. A driver reads the file `cases` where it
# runs.
# usage: bench/time/driver.sh NAME PROGRAM
set -eu
[ $# -eq 2 ] || { sed -n 's/^# usage: /usage: /p' "$0" >&2; exit 2; }
program=$(readlink -m "$2")
[ -d "${program%/*}" ] || { echo "driver.sh: there is no folder ${program%/*}" >&2; exit 2; }
cd "$(dirname "$(readlink -f "${BASH_SOURCE[0]}")")/../.."
case $1 in
  names) below="fast_check_cases fast_check_finder_lattice" ;;
  refused) below="fast_check_finder_lattice fast_check_tables_packages semver url" ;;
  builds) below="anyhow fast_check_build fast_check_program_requests fast_check_tables_cache fast_check_cases_cache fast_check_tables_graph fast_check_tables_packages serde_json" ;;
  *) echo "no driver: $1" >&2; exit 2 ;;
esac

scratch=$(mktemp -d)
trap 'rm -rf "$scratch"' EXIT
cp HANDLES "$scratch"
{ cat crates.txt; echo "driver: $below"; } > "$scratch/crates.txt"
for crate in crates/*/; do
  mkdir -p "$scratch/$crate/out"
  for part in src specs proofs; do
    [ ! -d "$crate$part" ] || cp -a "$crate$part" "$scratch/$crate"
  done
  [ ! -d "${crate}out/rlib" ] || cp -a --reflink=auto "${crate}out/rlib" "$scratch/${crate}out"
done
# The cases offer their cache to this driver alone, since a library that offers it writes all that its items mention.
[ "$1" != builds ] || echo 'pub use memory::MemoryCache;' >> "$scratch/crates/fast_check_cases_cache/src/lib.rt"
mkdir -p "$scratch/crates/driver/src"
for file in "bench/time/drivers/$1"/*.rt.txt; do
  name=${file##*/}
  cp "$file" "$scratch/crates/driver/src/${name%.txt}"
done
: > "$scratch/crates/driver/cases"
(cd "$scratch/crates/driver" && rt run)
cp "$scratch/crates/driver/out/driver" "$program"
chmod +x "$program"
