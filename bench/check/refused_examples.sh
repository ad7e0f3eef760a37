#!/usr/bin/env bash
# Refuses each request for memory of the program in turn, on eight examples of the three commands, and on stored runs of what no example has: a namespace of
# expando properties, two versions of a class, an error that the finder reports, and an export text that refuses the build (refuse.py says what has to come);
# and of `fast-check-source` in stored packages: aliases of a `tsconfig.json`, types of bodies, imports of npm, and a `package.json`. About two minutes.
# usage: bench/check/refused_examples.sh [PROGRAM [SOURCE]]      (what the gate or ./fast-check has built, else ./fast-check proves and builds the first)
set -eu
top=$(cd "$(dirname "$(readlink -f "${BASH_SOURCE[0]}")")/../.." && pwd)
cd "$top"
built=crates/fast_check_cli/out/fast_check_cli
if [ $# -eq 0 ] && [ ! -x "$built" ]; then
  ./fast-check build examples/build_hello.json > /dev/null
fi
program=${1:-$built}
[ -x "$program" ] || { echo "refused_examples.sh: there is no program $program; ./fast-check builds one, and tools/unproved one without any proof" >&2; exit 2; }
program=$(readlink -f "$program")
source=${2:-crates/fast_check_source/out/fast_check_source}
[ -x "$source" ] || { echo "refused_examples.sh: there is no program $source; tools/unproved --source builds one without any proof" >&2; exit 2; }
source=$(readlink -f "$source")
status=0
stored=crates/fast_check_vectors/data
python3 -m bench refuse "$program" transform examples/{first,functions,classes,modules,namespaces}.json $stored/an_exported_expando_namespace.json || status=1
python3 -m bench refuse "$program" build examples/build_{hello,canvas}.json \
  $stored/build_an_{entry_point_of_javascript_beside_another,export_that_does_not_join}.json || status=1
python3 -m bench refuse "$program" pair examples/pair.json $stored/pair_a_readonly_property.json || status=1
(cd tools/typescript/test/packages && PYTHONPATH="$top" python3 -m bench refuse --folders "$source" aliases local-types held-lines package-json) || status=1
exit "$status"
