#!/usr/bin/env bash
# Tests of tools/typescript that need no corpus: the packages of test/packages with their stored messages and skeletons, hidden edits, the
# command line, the pages, what programs call, and the language server. Prints what fails, and `N passed, M failed` at the end.
# usage: tools/typescript/test.sh [OPTION of node ..] [FILE ..]   the tests of some files of test/, else of all: `--test-name-pattern 'package classes'`
#        tools/typescript/test.sh --store [NAME ..]   stores what comes of packages as what is expected
# The program is that of the variable FAST_CHECK, else what the gate or ./fast-check has built; with neither ./fast-check proves and builds it.
set -u
here=$(cd "$(dirname "$(readlink -f "${BASH_SOURCE[0]}")")" && pwd)
top=$(cd "$here/../.." && pwd)
built="$top/crates/fast_check_cli/out/fast_check_cli"
if [ -z "${FAST_CHECK-}" ]; then
  [ -x "$built" ] || "$top/fast-check" build "$top/examples/build_hello.json" > /dev/null || exit
  export FAST_CHECK="$built"
fi
if [ "${1-}" = --store ]; then
  shift
  exec node "$here/test/support/stored.js" "$@"
fi
files=()
for word; do [[ $word != *.test.js ]] || files+=("$word"); done
[ ${#files[@]} -gt 0 ] || set -- "$@" "$here"/test/*.test.js "$here"/test/*/*.test.js
# Node reads these certificates before anything else, and no test opens a connection.
unset NODE_EXTRA_CA_CERTS
# Where Debian's packages of Node lie.
export NODE_PATH=${NODE_PATH-}:/usr/share/nodejs
# On all processors, where Node lets it be said: else one is left out.
jobs=$(node --help | grep -o -m 1 -- --test-concurrency) && jobs=$jobs=$(nproc)
exec node --test ${jobs:+"$jobs"} --test-reporter "$here/test/support/reporter.js" --test-reporter-destination stdout "$@"
