#!/usr/bin/env bash
# Fetches the newest TypeScript compiler that Debian has, of its unstable suite, into a folder, and prints where it lies:
#
#   export TYPESCRIPT=$(tools/typescript/newest.sh FOLDER)
#   tools/typescript/test.sh
#
# Nothing is installed: apt works with lists of its own below FOLDER, from the first Debian mirror that the machine has, and trusts the keys that Debian's
# own keyring has. `tools/typescript` takes the compiler that the variable TYPESCRIPT names in place of the installed one.
set -eu
folder=${1:?usage: newest.sh FOLDER}
mkdir -p "$folder/sources" "$folder/lists/partial" "$folder/cache/archives/partial"
folder=$(cd "$folder" && pwd)
lacks() {
  echo "newest.sh: $1" >&2
  exit 1
}
mirror=$(apt-get indextargets --format '$(REPO_URI)' 'Identifier: Packages' 'Origin: Debian' 'Component: main' | grep -v security | sort -u | head -n 1)
[ "$mirror" ] || lacks "no Debian mirror is known: run apt-get update first"
keys=/usr/share/keyrings/debian-archive-keyring.gpg
[ -r "$keys" ] || lacks "$keys is not there"
printf 'Types: deb\nURIs: %s\nSuites: unstable\nComponents: main\nSigned-By: %s\n' "$mirror" "$keys" > "$folder/sources/newest.sources"
apt=(apt-get -q -o Dir::Etc::sourcelist=/dev/null -o Dir::Etc::sourceparts="$folder/sources" -o Dir::State::lists="$folder/lists"
  -o Dir::Cache="$folder/cache" -o APT::Sandbox::User=root -o Acquire::IndexTargets::deb::Contents-deb::DefaultEnabled=false)
"${apt[@]}" update > "$folder/log" 2>&1 || lacks "the lists were not fetched: $folder/log says why"
(cd "$folder" && rm -f node-typescript_*.deb && "${apt[@]}" download node-typescript/unstable >> log 2>&1) || lacks "the package was not fetched: $folder/log says why"
rm -rf "$folder/package"
dpkg -x "$folder"/node-typescript_*.deb "$folder/package"
found="$folder/package/usr/share/nodejs/typescript"
[ -r "$found/lib/typescript.js" ] || lacks "the package has no lib/typescript.js: it is of another kind than those known here"
echo "newest.sh: TypeScript $(node -p 'require(process.argv[1]).version' "$found")" >&2
echo "$found"
