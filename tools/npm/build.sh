#!/usr/bin/env bash
# Makes the npm package of fast-check-ts, and prints its path:
#
#   tools/npm/build.sh [FOLDER]
#
# It is FOLDER/nagdrez-VERSION.tgz; FOLDER is tools/npm/out where none is given. The programs are those of the variables FAST_CHECK and FAST_CHECK_SOURCE, else the
# proved ones, which ./fast-check-build proves and builds first. A program that was not proved here makes a version that ends with `-unproved`. Needs npm, node and
# binutils; no network.
set -eu
umask 022
here=$(cd "$(dirname "$(readlink -f "${BASH_SOURCE[0]}")")" && pwd)
top=$(cd "$here/../.." && pwd)
unproved=

fail() {
  echo "build.sh: $2" >&2
  exit "$1"
}

for tool in npm node strip sha256sum; do
  command -v "$tool" > /dev/null || fail 5 "$tool is not there; on Debian: apt-get install -y npm nodejs binutils"
done
. "$top/tools/find-program.sh"

# Puts the program that was found into the package.
add_program() {
  install -m 755 "$found" "$made/bin/$1"
  strip --remove-section=.comment --remove-section=.note "$made/bin/$1"
}

folder=${1:-$here/out}
mkdir -p "$folder"
made=$(mktemp -d)
trap 'rm -rf "$made"' EXIT
mkdir "$made/bin"
cp -r "$top/tools/typescript/src" "$made/src"
cp -r "$top/docs/errors" "$made/errors"
cp -r "$top/tools/schemas" "$made/schemas"
install -m 755 "$top/tools/typescript/bin/fast-check-ts.js" "$made/bin/nagdrez.js"
find_program fast_check_cli "${FAST_CHECK-}" && add_program fast-check
find_program fast_check_source "${FAST_CHECK_SOURCE-}" && add_program fast-check-source
version=$(< "$top/VERSION")${unproved:+-unproved}
(cd "$made" && sha256sum bin/fast-check bin/fast-check-source > SHA256)
install -m 644 "$top/LICENSE" "$top/CHANGELOG.md" "$here/README.md" "$made"
node "$here/manifest.js" "$top/tools/typescript/package.json" "$version" > "$made/package.json"
# The types of the package are made by the package's own command.
echo '{"name": "nagdrez-types", "version": "0.0.0", "exports": "./api.d.ts"}' > "$made/src/api/package.json"
node "$made/bin/nagdrez.js" skeleton --no-cache "$made/src/api" "$made/types" >&2
rm "$made/src/api/package.json"
mv "$made/types/api.d.ts" "$made/index.d.ts"
rmdir "$made/types"
npm pack --silent --pack-destination "$folder" "$made" > /dev/null < /dev/null
echo "$folder/nagdrez-$version.tgz"
