#!/usr/bin/env bash
# Has TypeScript's compiler check the JavaScript of this folder by tsconfig.json:
#
#   tools/typescript/types.sh          prints the errors; status 0 where there are none, 5 where the compiler or the types of Node are missing
#
# The types of Node are those of Debian's package `nodejs`, which is fetched into the cache folder and not installed. The compiler is Debian's, or the one that the
# variable TYPESCRIPT names.
set -eu
here=$(cd "$(dirname "$(readlink -f "${BASH_SOURCE[0]}")")" && pwd)
folder=${XDG_CACHE_HOME:-$HOME/.cache}/fast-check-ts/node-types
types=/usr/share/nodejs/@types
tsc=${TYPESCRIPT:-/usr/share/nodejs/typescript}/lib/tsc.js
if [ ! -r "$tsc" ]; then
  echo "types.sh: there is no $tsc; on Debian: apt-get install -y node-typescript" >&2
  exit 5
fi

# The newest version that Debian's mirror has, where others have one too.
version() {
  local mirror
  mirror=$(apt-get indextargets --format '$(REPO_URI)' 'Identifier: Packages' 'Origin: Debian' 'Component: main' | grep -v security | sort -u | head -n 1)
  apt-cache madison nodejs | awk -F ' *[|] *' -v mirror="${mirror%/}" 'index($3, mirror " ") == 1 { print $2; exit }'
}

if [ ! -d "$types/node" ]; then
  types=$folder/usr/share/nodejs/@types
  if [ ! -d "$types/node" ]; then
    mkdir -p "$folder"
    if ! { (cd "$folder" && apt-get -q download "nodejs=$(version)" > log 2>&1) && dpkg -x "$folder"/nodejs_*.deb "$folder"; }; then
      echo "types.sh: Debian's package nodejs is not to be had: $folder/log says why" >&2
      exit 5
    fi
  fi
fi
# What the configuration cannot say: where the types of the compiler and of Node lie.
mkdir -p "$folder"
cat > "$folder/tsconfig.json" <<END
{
  "extends": "$here/tsconfig.json",
  "compilerOptions": { "typeRoots": ["$types"], "types": ["node"], "paths": { "typescript": ["$(dirname "$tsc")/typescript.d.ts"] } },
  "include": ["$here/bin", "$here/src", "$here/dev", "$here/test/**/*.js"],
  "exclude": ["$here/test/packages", "$here/test/expected"]
}
END
exec node "$tsc" -p "$folder"
