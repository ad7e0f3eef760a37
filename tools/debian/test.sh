#!/usr/bin/env bash
# Tests of the package, within half a minute: builds the package from a copy of this repository, and runs what lies in it. Prints what fails, and
# `N passed, M failed` at the end.
#
#   tools/debian/test.sh           installs nothing: the files of the package lie over those of this machine for the tests alone
#   tools/debian/test.sh --fresh   and in a new Debian 12, which debootstrap fetches, with what the package depends on: some minutes, as root
#
# The programs are those of the variables FAST_CHECK and FAST_CHECK_SOURCE, else the proved ones of this repository, else those that tools/unproved compiles. Needs
# lintian and mandoc.
set -u
export LC_ALL=C
here=$(cd "$(dirname "$(readlink -f "${BASH_SOURCE[0]}")")" && pwd)
top=$(cd "$here/../.." && pwd)
program=${FAST_CHECK:-$top/crates/fast_check_cli/out/fast_check_cli}
[ -x "$program" ] || program=$("$top/tools/unproved") || exit 5
source_program=${FAST_CHECK_SOURCE:-$top/crates/fast_check_source/out/fast_check_source}
[ -x "$source_program" ] || source_program=$("$top/tools/unproved" --source) || exit 5
unset FAST_CHECK FAST_CHECK_SOURCE SOURCE_DATE_EPOCH
for tool in lintian mandoc unshare; do
  command -v "$tool" > /dev/null || { echo "test.sh: $tool is not there; on Debian: apt-get install -y lintian mandoc util-linux" >&2; exit 5; }
done
made=$(mktemp -d)
export XDG_CACHE_HOME="$made/cache"
trap 'rm -rf "$made"' EXIT
passed=0 failed=0

# Counts a test by the status of the words behind its name.
test_that() {
  local name=$1
  shift
  if "$@" > "$made/said" 2>&1; then
    passed=$((passed + 1))
  else
    failed=$((failed + 1))
    echo "failed: $name"
    sed 's/^/    /' "$made/said"
  fi
}

# Whether words end with a status, and say a text.
ends_with() {
  local status=$1 text=$2 said
  shift 2
  said=$("$@" 2>&1)
  [[ $? = "$status" && $said == *"$text"* ]] || { echo "$said"; return 1; }
}

# A copy of what the package is made from, as a repository with one commit.
copy_to() {
  mkdir -p "$1"
  (cd "$top" && git ls-files -z -co --exclude-standard .gitignore VERSION LICENSE SECURITY.md action.yml .pre-commit-hooks.yaml fast-check-ts tools docs examples | tar --null -T - -c) | tar -x -C "$1"
  (cd "$1" && git init -q && git add . && git -c user.name=N -c user.email=n@n.example commit -q -m "A copy") || exit 1
}

# Makes a package in a folder of a copy, with the programs that are not proved.
build_in() {
  (cd "$1" && FAST_CHECK=$program FAST_CHECK_SOURCE=$source_program tools/debian/build.sh "${@:2}")
}

# What `dpkg-deb -f` says of the package in a folder.
field_of() {
  dpkg-deb -f "$1"/nagdrez_*.deb "$2"
}

# Whether a build without FAST_CHECK packs what ./fast-check-build makes, as proved. A script stands for ./fast-check-build.
packs_proved() {
  printf '#!/bin/sh\ncase $* in fast_check_cli) made="%s" ;; fast_check_source) made="%s" ;; *) exit 1 ;; esac\nmkdir -p "%s/$1/out" && cp "$made" "%s/$1/out/$1"\n' \
    "$program" "$source_program" "$second/crates" "$second/crates" > "$second/fast-check-build"
  chmod +x "$second/fast-check-build"
  "$second/tools/debian/build.sh" "$made/proved" && [ "$(field_of "$made/proved" Version)" = "$(< "$top/VERSION")" ] &&
    [[ $(field_of "$made/proved" Description) == *"Every function of the programs is proved"* ]]
}

# Whether FAST_CHECK may name the same program, as long as no source is newer.
packs_proved_by_name() {
  local own=$second/crates/fast_check_cli/out/fast_check_cli
  local -x FAST_CHECK_SOURCE=$second/crates/fast_check_source/out/fast_check_source
  FAST_CHECK=$own "$second/tools/debian/build.sh" "$made/named" && [ "$(field_of "$made/named" Version)" = "$(< "$top/VERSION")" ] &&
    mkdir "$second/crates/fast_check_cli/src" && touch -d tomorrow "$second/crates/fast_check_cli/src/main.rt" &&
    FAST_CHECK=$own ends_with 0 "~unproved" "$second/tools/debian/build.sh" "$made/older"
}

# Whether no package is made where ./fast-check-build fails.
fails_without_program() {
  printf '#!/bin/sh\nexit 1\n' > "$second/fast-check-build"
  ends_with 5 "the program is not built" "$second/tools/debian/build.sh" "$made/none" && ! ls "$made/none"/*.deb
}

# Whether the changelog has the commit and both hashes of the program.
changelog_is_right() {
  local changelog hash
  changelog=$(zcat "$made/root/usr/share/doc/nagdrez/changelog.gz")
  local lib="$made/root/usr/lib/nagdrez"
  for hash in "$(git -C "$copy" rev-parse HEAD)." "$(sha256sum "$lib/fast-check")" "$(sha256sum "$program")" "$(sha256sum "$lib/fast-check-source")" "$(sha256sum "$source_program")"; do
    [[ $changelog == *"${hash%% *}"* ]] || { echo "$hash is not in: $changelog"; return 1; }
  done
}

# Whether the pages have no fault of form, name each command and option of `--help`, and files that are there.
pages_are_right() {
  local pages="$made/root/usr/share/man/man1" word text
  gunzip -k "$pages"/*.gz && mandoc -T lint -W warning "$pages"/*.1 || return 1
  text=$(MANWIDTH=1000 mandoc -T utf8 "$pages/fast-check-ts.1" | col -b)
  for word in $("$top/fast-check-ts" --help | sed -n 's/^  \([a-z-]*\) .*/\1/p' | grep -v -x -e --unproved); do
    grep -q "^ *$word" <<< "$text" || { echo "$word is not in: $text"; return 1; }
  done
  for word in $(grep -h -o '/usr/[a-zA-Z/_.\\-]*[a-zA-Z]' "$pages"/*.1 | tr -d '\\'); do
    [ -e "$made/root$word" ] || { echo "$word is not there"; return 1; }
  done
}

# Whether each link of the pages leads to something in the package.
links_are_right() {
  "$top/tools/repo/pages.py" "$made/root/usr/share/doc/nagdrez"
}

# What is offered behind words, the last of which is begun.
offered() {
  within bash -c 'source /usr/share/bash-completion/completions/"$1"; COMP_WORDS=("$@") COMP_CWORD=$(($# - 1)); _fast_check "$1"; echo ${COMPREPLY[*]}' - "$@"
}

completes() {
  [ "$(offered fast-check-ts che)" = check ] && [ "$(offered fast-check-ts --no-color ske)" = skeleton ] && [ -z "$(offered fast-check-ts check che)" ] &&
    [[ $(offered fast-check-ts --) == "--name "*" --help" ]] && [ "$(offered fast-check "")" = "transform build pair" ] &&
    [ "$(offered fast-check-ts check --w)" = --watch ] && [ -z "$(offered fast-check-ts fix --w)" ] && [ "$(offered fast-check-ts fix --d)" = --dry-run ] &&
    [ "$(offered fast-check-ts check --format "")" = "text json github sarif junit badge" ] && [ "$(offered fast-check-ts check --allow missing-m)" = missing-module ] &&
    [ "$(offered fast-check-ts check --baseline VER)" = VERSION ] && [ -z "$(offered fast-check-ts check --max-warnings "")" ]
}

# Whether fish and zsh offer what bash does.
fish_completes() {
  [ "$(within fish -c 'complete -C "fast-check-ts ch"' | cut -f 1)" = check ] && within fish -c 'complete -C "fast-check-ts check --fo"' | grep -q -- --format &&
    [ "$(within fish -c 'complete -C "fast-check-ts check --format s"' | cut -f 1)" = sarif ] && within fish -c 'complete -C "fast-check-ts explain wid"' | grep -q widened-literal
}

zsh_completes() {
  within zsh -c 'source <(sed "/^_fast_check_ts \"/d" /usr/share/zsh/vendor-completions/_fast-check-ts); _fast_check_entries fast-check-ts "[a-z]+" --help; _fast_check_entries fast-check-ts "-[a-z-]+" help check' > "$made/zsh" &&
    grep -q '^check:messages' "$made/zsh" && grep -q '^--format:text' "$made/zsh" && grep -q '^-q:report' "$made/zsh"
}

# Runs words in the copy, where the files of the package lie over those of this machine, for these words alone.
within() {
  unshare --map-root-user --mount bash -c 'mount -t overlay overlay -o "lowerdir=$0/usr:/usr" /usr && cd "$1" && exec "${@:2}"' "$made/root" "$copy" "$@"
}

# Whether a command of fast-check-ts answers as that of the repository does, but for the seconds.
answers_alike() {
  local status
  within fast-check-ts "$@" > "$made/installed" 2>&1
  status=$?
  (cd "$copy" && FAST_CHECK=$program ./fast-check-ts "$@" > "$made/own" 2>&1)
  [[ $? = "$status" && $status -le 1 && -s $made/own ]] || { cat "$made/installed" "$made/own"; return 1; }
  diff <(sed 's/[0-9.]* s\b//' "$made/installed") <(sed 's/[0-9.]* s\b//' "$made/own")
}

# Whether the package installs in a new Debian 12, with what it depends on and no more, and answers there; and whether nothing of it stays.
installs_afresh() {
  local fresh="$made/fresh" mirror
  mirror=$(apt-get indextargets --format '$(REPO_URI)' 'Identifier: Packages' 'Origin: Debian' 'Component: main' | grep -v security | sort -u | head -n 1)
  debootstrap --variant=minbase bookworm "$fresh" "$mirror" && cp "$made"/first/*.deb "$fresh/nagdrez.deb" &&
    DEBIAN_FRONTEND=noninteractive chroot "$fresh" apt-get install -y -q --no-install-recommends /nagdrez.deb < /dev/null &&
    ends_with 1 "4 files, 1 message" chroot "$fresh" fast-check-ts check --no-cache /usr/share/doc/nagdrez/examples/package &&
    ends_with 0 "fast-check-ts $(< "$top/VERSION")" chroot "$fresh" fast-check-ts --version &&
    mkdir "$fresh/package" && printf 'export function twice(n: number) { return 2 * n; }\n' > "$fresh/package/index.ts" &&
    ends_with 0 "1 type written" chroot "$fresh" sh -c 'cd /package && fast-check-ts fix --no-cache' &&
    DEBIAN_FRONTEND=noninteractive chroot "$fresh" apt-get install -y -qq --no-install-recommends neovim < /dev/null > /dev/null && cp "$top/tools/editors/neovim.lua" "$fresh/tmp" &&
    printf 'export function twice(n: number) { return 2 * n; }\n' > "$fresh/package/index.ts" &&
    ends_with 0 "the end" chroot "$fresh" sh -c 'cd /package && XDG_CACHE_HOME=/package/cache SERVER="fast-check-ts lsp" nvim --headless -u NONE -c "luafile /tmp/neovim.lua"' &&
    rm -r "$fresh/package" "$fresh/tmp/neovim.lua" &&
    chroot "$fresh" apt-get purge -y -q nagdrez && [ -z "$(find "$fresh" -path "$fresh/proc" -prune -o -name '*fast-check*' -print -o -name 'nagdrez' -print)" ]
}

copy="$made/copy" second="$made/another place/second"
copy_to "$copy"
git clone -q "$copy" "$second"
test_that "a program that was not proved here is reported" ends_with 0 "the version is $(< "$top/VERSION")~unproved" build_in "$copy" --reproducible "$made/first"
(umask 077 && sleep 1 && build_in "$second" --reproducible "$made/second" > /dev/null 2>&1)
test_that "two builds of a commit are the same" cmp "$made"/{first,second}/"nagdrez_$(< "$top/VERSION")~unproved_amd64.deb"
dpkg-deb -x "$made"/first/*.deb "$made/root" || exit 1
test_that "lintian has no error" lintian --allow-root --fail-on error "$made"/first/*.deb
test_that "the version has a suffix" [ "$(field_of "$made/first" Version)" = "$(< "$top/VERSION")~unproved" ]
test_that "it depends on Node and TypeScript" grep -q "^nodejs .*node-typescript .*libc6" <(field_of "$made/first" Depends)
test_that "the changelog has the hashes" changelog_is_right
test_that "the pages" pages_are_right
test_that "links of the pages" links_are_right
if command -v fish > /dev/null; then test_that "completion of fish" fish_completes; else echo "not tried: fish is not there"; fi
if command -v zsh > /dev/null; then test_that "completion of zsh" zsh_completes; else echo "not tried: zsh is not there"; fi
test_that "completion" completes

package=tools/typescript/test/packages
for words in "check examples/package" "check --format junit examples/package $package/classes" "check $package/ignored" "check --help" "check --unproved examples/package" "check --json examples/package" "check --verify $package/classes" "skeleton $package/classes" "input $package/classes" \
  "fix --dry-run $package/fixed" "diff $package/classes $package/enums" "report $package/classes $made/page.html" "--help"; do
  # shellcheck disable=SC2086
  test_that "$words" answers_alike $words
done
# Whether the package reads TypeScript without a compiler.
reads_without_compiler() {
  TYPESCRIPT=/nowhere ends_with 0 "3 files, 3 public modules, 0 messages" within fast-check-ts check --reader source --no-cache "$package/workspace" &&
    ends_with 1 "missing-explicit-return-type" within /usr/lib/nagdrez/fast-check-source examples/package
}
test_that "it reads without a compiler" reads_without_compiler
test_that "fast-check answers" cmp "$top/examples/first.answer.json" <(within fast-check transform /usr/share/doc/nagdrez/examples/first.json)
test_that "fast-check refuses" ends_with 2 "usage: fast-check (build|transform|pair) FILE" within fast-check check
for name in fast-check fast-check-ts; do
  test_that "$name --version" ends_with 0 "$name $(< "$top/VERSION")~unproved" within "$name" --version
  test_that "$name --help" ends_with 0 "usage: $name " within "$name" --help
done
test_that "another program by FAST_CHECK" ends_with 5 "/no/program does not start" within env FAST_CHECK=/no/program fast-check-ts check examples/package

test_that "a proved program has no suffix" packs_proved
test_that "a proved program by its name" packs_proved_by_name
test_that "no program, no package" fails_without_program
test_that "changes are refused" ends_with 1 "not committed" build_in "$second" --reproducible "$made/none"
test_that "an option that is not there" ends_with 2 "usage:" build_in "$copy" --reproduce
test_that "too many words" ends_with 2 "usage:" build_in "$copy" a b
test_that "a program that is not there" ends_with 5 "there is no program /no/program" env FAST_CHECK=/no/program "$copy/tools/debian/build.sh" "$made/none"
[ "${1-}" != --fresh ] || test_that "a new Debian" installs_afresh
echo "$passed passed, $failed failed"
[ "$failed" = 0 ]
