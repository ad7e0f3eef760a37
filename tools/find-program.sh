# Read by the builds of packages, which have `top` and `fail STATUS WHY`.

# Finds the program of a crate: the one that is named, else the proved one. `found` is its file then. `unproved` is the file too where it was not built here, of the
# sources as they are, and so does not count as proved.
find_program() {
  local crate=$1 built="$top/crates/$1/out/$1"
  found=$2
  if [ -z "$found" ]; then
    found=$built
    "$top/fast-check-build" "$crate" >&2 || fail 5 "the program is not built"
  elif [[ ! $found -ef $built || -n $(find "$top/crates.txt" "$top"/crates/*/{src,specs,proofs} -newer "$built" -print -quit 2> /dev/null) ]]; then
    unproved=$found
  fi
  [[ -f $found && -x $found ]] || fail 5 "there is no program $found"
  found=$(readlink -f "$found")
}
