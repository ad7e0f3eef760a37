#!/usr/bin/env bash
# Fetches Debian packages that carry TypeScript into a folder outside of the repository: packages as they are installed, with sources or declarations, and
# source packages, monorepos among them; and into `node_modules` of the folder those whose types the sources use, which are not looked at by themselves:
#
#   tools/typescript/dev/corpus.sh FOLDER
#   FAST_CHECK=PROGRAM node tools/typescript/dev/sweep.js FOLDER [--verify]       what `check` says of each; with --fix, what is left behind `fix`
#   FAST_CHECK=PROGRAM node tools/typescript/dev/judge.js FOLDER [--modules]      whether the skeletons declare what the sources do
#
# Nothing is installed. The installed packages are those of the machine's own lists, as of the last `apt-get update`; for source packages apt works with lists of
# its own below FOLDER. Of each the first suite counts whose archive is there. What is not fetched is reported.
set -u
folder=${1:?usage: corpus.sh FOLDER}
packages="node-lumino node-jose node-inquirer node-recast node-ast-types jest node-graphql node-dom-helpers node-yaml node-undici
  node-postcss node-parse5 node-cheerio node-chart.js node-memfs node-mqtt node-domutils node-domhandler node-entities node-css-select
  node-css-what node-htmlparser2 node-ip-address node-cronstrue node-socks node-got node-agent-base ts-node node-js-sdsl rollup"
sources="node-jest node-babel7 node-parse5 node-xterm node-js-sdsl node-rollup node-cheerio node-yaml node-graphql node-mqtt node-inquirer ts-jest
  node-typestyle node-sinclair-typebox node-chart.js node-got node-jose node-dom-helpers node-webpack node-playwright"
suites="bookworm trixie unstable"
used="nodejs node-babel7 jest node-acorn node-ansi-escapes node-boolbase node-browserslist node-chalk node-chokidar node-ci-info node-commander
  node-convert-source-map node-css-select node-csstype node-debug node-dom-serializer node-domhandler node-domutils node-entities node-find-cache-dir
  node-free-style node-fs-readdir-recursive node-glob node-globals node-graceful-fs node-htmlparser2 node-istanbul node-jest-debbundle node-jest-worker
  node-js-tokens node-jsdom node-jsesc node-json5 node-lru-cache node-magic-string node-make-dir node-micromatch node-parse5 node-prompts node-read-pkg
  node-resolve node-semver node-sinclair-typebox node-slash node-source-map-support node-stack-utils node-terser node-validate-npm-package-name
  node-write-file-atomic node-ws node-yargs"
mkdir -p "$folder/archives" "$folder/apt/sources" "$folder/apt/lists/partial" "$folder/apt/cache/archives/partial"
folder=$(cd "$folder" && pwd)
cd "$folder" || exit 1

count() { find "$@" -type f | wc -l; }
tell() { echo "$1: $(count "$2" -name '*.ts' ! -name '*.d.ts') sources, $(count "$2" -name '*.d.ts') declaration files, $(count "$2" -name package.json) package.json"; }

for package in $packages; do
  [ -d "$package" ] && continue
  if (cd archives && apt-get -q download "$package" > /dev/null 2>&1) && dpkg -x archives/"${package}"_*.deb "$package.part"; then
    mv "$package.part" "$package"
    tell "$package" "$package"
  else
    rm -rf "$package.part"
    echo "$package: not fetched"
  fi
done

mirror=$(apt-get indextargets --format '$(REPO_URI)' 'Identifier: Packages' 'Origin: Debian' 'Component: main' | grep -v security | sort -u | head -n 1)

# The newest version of a package that Debian's mirror has, where others have one too.
version_of() { apt-cache madison "$1" | awk -F ' *[|] *' -v mirror="${mirror%/}" 'index($3, mirror " ") == 1 { print $2; exit }'; }

mkdir -p node_modules archives/used
for package in $used; do
  ls archives/used/"${package}"_*.deb > /dev/null 2>&1 && continue
  if (cd archives/used && apt-get -q download "$package=$(version_of "$package")" > /dev/null 2>&1) && dpkg -x archives/used/"${package}"_*.deb used.part; then
    for found in used.part/usr/share/nodejs used.part/usr/lib/nodejs; do [ -d "$found" ] && cp -rn "$found/." node_modules/; done
    rm -rf used.part
  else
    echo "$package: not fetched"
  fi
done

# Unpacks the archives of a source package of a suite into a folder, each in a part of its own.
unpack() {
  mkdir -p "$2.part"
  (cd "$2.part" && "${apt[@]}" source --download-only --tar-only "$1" >> "$folder/log" 2>&1)
  for archive in "$2.part"/*.orig*.tar.*; do
    [ -e "$archive" ] || continue
    part=${archive##*.orig}
    mkdir -p "$2.part/src${part%%.tar*}"
    tar xf "$archive" -C "$2.part/src${part%%.tar*}" --no-same-owner 2>> "$folder/log"
    rm "$archive"
  done
  [ -d "$2.part/src" ] && mv "$2.part" "$2" || { rm -rf "$2.part"; false; }
}

keys=/usr/share/keyrings/debian-archive-keyring.gpg
printf 'Types: deb-src\nURIs: %s\nSuites: %s\nComponents: main\nSigned-By: %s\n' "$mirror" "$suites" "$keys" > apt/sources/sources.sources
apt=(apt-get -q -o Dir::Etc::sourcelist=/dev/null -o Dir::Etc::sourceparts="$folder/apt/sources" -o Dir::State::lists="$folder/apt/lists"
  -o Dir::Cache="$folder/apt/cache" -o APT::Sandbox::User=root)
"${apt[@]}" update > log 2>&1 || echo "corpus.sh: the lists of sources were not fetched: $folder/log says why"
mkdir -p sources
for package in $sources; do
  [ -d "sources/$package" ] && continue
  for suite in $suites; do
    unpack "$package/$suite" "sources/$package" && break
  done
  if [ -d "sources/$package" ]; then tell "$package ($suite)" "sources/$package"; else echo "$package: no source archive is there"; fi
done
