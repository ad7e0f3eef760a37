#!/usr/bin/env bash
# Runs all random checks of bench/check on the program, and prints one line for each: its name, how many inputs it made, of which seed, how many differ,
# and the seconds. What differs stands below the line. Then come changed inputs (mutate.py), with how many breach, files and streams that are not as they
# should be (files.py), and the shapes of workspaces and of hostile tables, with how many there are and how many take more than they may, which stand below.
# The shapes take minutes whatever COUNT is, so they are run from a COUNT of 1000 on: with 20 all the rest ends within two minutes. The status is 1 where
# anything differs, breaches or takes too much, and 2 where nothing does and a check could not be run.
# The checks of packages and of name sets, and the few builds in which who asks first decides, also need the program of crates/fast_check_vectors, which
# `rt run` builds there and another one may be named for by VECTORS.
# usage: bench/check.sh PROGRAM [COUNT [SEED]]        (1000 of seed 1 where nothing is given)
set -u
[ $# -ge 1 ] && [ $# -le 3 ] || { sed -n 's/^# usage: /usage: /p' "$0" >&2; exit 2; }
program=$(readlink -f "$1") count=${2:-1000} seed=${3:-1}
top=$(cd "$(dirname "$(readlink -f "${BASH_SOURCE[0]}")")/.." && pwd)
vectors=$(readlink -f "${VECTORS:-$top/crates/fast_check_vectors/out/fast_check_vectors}")
[ -x "$program" ] || { echo "check.sh: there is no program $1" >&2; exit 2; }
cd "$top" || exit
status=0

# Takes how a check ended and how many of its inputs are wrong, which its last line says. Where it did not end well, what it said stands below its line.
judge() {
  local ended=$1 wrong=$2 said=$3
  if [ "$ended" -eq 0 ] && [ -n "$wrong" ]; then return; fi
  sed 's/^/  /' <<< "$said"
  if [ "$ended" -eq 1 ] && [ -n "$wrong" ]; then status=1; elif [ "$status" -eq 0 ]; then status=2; fi
}

# Runs the script that has this name with these words. Its last line says how many differ.
run() {
  local name=$1 said differ began=$SECONDS
  shift
  said=$(python3 -m bench "$name" "$@" 2>&1)
  local ended=$?
  differ=$(tail -n 1 <<< "$said" | sed -nE 's/.*[ ,]([0-9]+) differ.*/\1/p')
  printf '%-16s %7s inputs  seed %-6s %5s differ    %5s s\n' "$name" "$count" "$seed" "${differ:-?}" $((SECONDS - began))
  judge "$ended" "$differ" "$said"
}

# The same of a script of the program of the cases.
run_vectors() {
  if [ -x "$vectors" ]; then
    run "$@"
  else
    printf '%-16s not run: crates/fast_check_vectors is not built\n' "$1"
    [ "$status" -ne 0 ] || status=2
  fi
}

run random_modules "$count" "$seed" "$program"
run random_builds "$count" "$seed" "$program" "$vectors"
run random_pairs "$count" "$seed" "$program"
run_vectors packages run "$count" "$seed" "$vectors"
run_vectors random_names "$vectors" "$count" "$seed"

began=$SECONDS
said=$(python3 -m bench mutate "$program" "$count" "$seed" 2>&1)
ended=$?
read -r inputs breaches < <(sed -nE '$s/^inputs=([0-9]+) breaches=([0-9]+) .*$/\1 \2/p' <<< "$said")
printf '%-16s %7s inputs  seed %-6s %5s breach    %5s s\n' mutate "${inputs:-?}" "$seed" "${breaches:-?}" $((SECONDS - began))
judge "$ended" "${breaches:-}" "$said"

began=$SECONDS
said=$(python3 -m bench files "$program" 2>&1)
ended=$?
read -r runs differ < <(sed -nE '$s/^runs=([0-9]+) differing=([0-9]+)$/\1 \2/p' <<< "$said")
printf '%-16s %7s runs                %5s differ    %5s s\n' files "${runs:-?}" "${differ:-?}" $((SECONDS - began))
judge "$ended" "${differ:-}" "$said"

if [ "$count" -lt 1000 ]; then
  printf '%-16s not run: from a COUNT of 1000 on\n' shapes
  exit "$status"
fi

began=$SECONDS
said=$(python3 -m bench shapes "$program" 2>&1)
ended=$?
read -r shapes above < <(sed -nE '$s/^shapes=([0-9]+) above=([0-9]+)$/\1 \2/p' <<< "$said")
printf '%-16s %7s shapes              %5s above     %5s s\n' shapes "${shapes:-?}" "${above:-?}" $((SECONDS - began))
[ "$ended" -ne 1 ] || [ -z "${above:-}" ] || said=$(grep 'too much$' <<< "$said")
judge "$ended" "${above:-}" "$said"
exit "$status"
