#!/usr/bin/env bash
# Makes the Debian package of fast-check and fast-check-ts, and prints its path:
#
#   tools/debian/build.sh [--reproducible] [FOLDER]
#
# It is FOLDER/nagdrez_VERSION_amd64.deb; FOLDER is tools/debian/out where none is given. ./fast-check-build proves and builds the program first, where it is
# not built, and the one that reads TypeScript. The variables FAST_CHECK and FAST_CHECK_SOURCE may name programs that are packed in their place. These count as proved
# where they are those that `rt ci` or ./fast-check-build has left here, in crates/fast_check_cli/out and crates/fast_check_source/out, and no source is newer; with any
# other the version ends with `~unproved`.
#
# With --reproducible all dates are that of the commit, and changes that are not committed are refused: two packages of one commit and one program are the same,
# byte for byte. Else the dates are that of the variable SOURCE_DATE_EPOCH, or of now.
#
# The changelog of the package has the commit and the hash of the program. Needs Debian's dpkg-dev, binutils, nodejs and git.
set -eu
umask 022
export LC_ALL=C TZ=UTC
here=$(cd "$(dirname "$(readlink -f "${BASH_SOURCE[0]}")")" && pwd)
top=$(cd "$here/../.." && pwd)

fail() {
  echo "build.sh: $2" >&2
  exit "$1"
}

. "$top/tools/find-program.sh"

# Says the sums of a program, as it is packed and as it was built.
say_sums() {
  echo "  * SHA-256 of /usr/lib/nagdrez/$1:"
  echo "    $(sha256sum < "$root/usr/lib/nagdrez/$1" | cut -d ' ' -f 1)"
  echo "  * SHA-256 of the same program as it was built, with its symbols:"
  echo "    $(sha256sum < "$2" | cut -d ' ' -f 1)"
}

# Packs a program.
add_program() {
  install "$2" "$lib/$1"
  strip --remove-section=.comment --remove-section=.note "$lib/$1"
}

# Makes the changelog, whose one entry says what the package is made of.
write_changelog() {
  echo "nagdrez ($version) unstable; urgency=medium"
  echo
  echo "  * Commit $commit${changes:+, with changes}."
  say_sums fast-check "$program"
  say_sums fast-check-source "$source_program"
  echo "  * $proof"
  echo
  echo " -- $(sed -n 's/^Maintainer: //p' "$here/control")  $(date -R -d "@$SOURCE_DATE_EPOCH")"
}

# Lays out the files as they are installed. Below /usr/lib/nagdrez they lie as in the repository.
lay_out() {
  local lib="$root/usr/lib/nagdrez" doc="$root/usr/share/doc/nagdrez" man="$root/usr/share/man/man1" completions="$root/usr/share/bash-completion/completions"
  local zsh="$root/usr/share/zsh/vendor-completions" fish="$root/usr/share/fish/vendor_completions.d"
  install -d "$root/DEBIAN" "$root/usr/bin" "$lib/tools/typescript" "$doc/examples" "$man" "$completions" "$zsh" "$fish"
  install "$here"/bin/* "$root/usr/bin"
  add_program fast-check "$program"
  add_program fast-check-source "$source_program"
  install "$top/fast-check-ts" "$lib"
  echo "$version" > "$lib/VERSION"
  cp -r "$top/tools/typescript/src" "$top/tools/typescript/bin" "$top/tools/typescript/newest.sh" "$lib/tools/typescript"
  sed "s/\"version\": \"[^\"]*\"/\"version\": \"$version\"/" "$top/tools/typescript/package.json" > "$lib/tools/typescript/package.json"
  find "$lib/tools/typescript/src" -type f -exec chmod 644 {} +
  install -m 644 "$here/completion.bash" "$completions/fast-check-ts"
  ln -s fast-check-ts "$completions/fast-check"
  install -m 644 "$here/completion.zsh" "$zsh/_fast-check-ts"
  install -m 644 "$here/completion.fish" "$fish/fast-check-ts.fish"
  cp -r "$top/docs/errors" "$lib/tools/typescript/errors"
  install -m 644 "$top/LICENSE" "$doc/copyright"
  (cd "$top" && node "$here/pages.js" "$doc" SECURITY.md docs/{guide,cli,ci,limits,registry,api,FORMATS}.md docs/proofs/{hidden,rules}.md docs/errors/*.md tools/schemas/*.json \
    examples/ci/* examples/clients/client.* action.yml .pre-commit-hooks.yaml)
  cp -r "$top"/examples/{package,first.json,build_hello.json,pair.json} "$doc/examples"
  for page in fast-check fast-check-ts; do
    node "$here/manual.js" "$here/$page.1" "$version" "$(date -d "@$SOURCE_DATE_EPOCH" +%F)" | gzip -9n > "$man/$page.1.gz"
  done
  write_changelog > "$made/debian/changelog"
  gzip -9n < "$made/debian/changelog" > "$doc/changelog.gz"
}

# Makes the control file and the sums, as Debian's own tools do.
write_control() {
  cp "$here/control" "$made/debian/control"
  cd "$made"
  { dpkg-shlibdeps -O -e "$root/usr/lib/nagdrez/fast-check" -e "$root/usr/lib/nagdrez/fast-check-source" && echo "Proof=$proof"; } > debian/substvars
  dpkg-gencontrol -pnagdrez -P"$root" -O > "$root/DEBIAN/control"
  (cd "$root" && find usr -type f -print0 | sort -z | xargs -0 md5sum > DEBIAN/md5sums)
  chmod -R u=rwX,go=rX "$root"
  find "$root" -exec touch -h -d "@$SOURCE_DATE_EPOCH" {} +
}

reproducible=
if [ "${1-}" = --reproducible ]; then
  reproducible=yes
  shift
fi
[[ $# -le 1 && ${1-} != -* ]] || fail 2 "usage: tools/debian/build.sh [--reproducible] [FOLDER]"
for tool in dpkg-shlibdeps strip node git; do
  command -v "$tool" > /dev/null || fail 5 "$tool is not there; on Debian: apt-get install -y dpkg-dev binutils nodejs git"
done
read -r commit committed < <(git -C "$top" log -1 --format='%H %ct') || fail 1 "there is no commit"
changes=$(git -C "$top" status --porcelain)
export SOURCE_DATE_EPOCH=${SOURCE_DATE_EPOCH:-$(date +%s)}
if [ "$reproducible" ]; then
  [ -z "$changes" ] || fail 1 "there are changes that are not committed, and the package would not be that of a commit"
  SOURCE_DATE_EPOCH=$committed
fi

version=$(< "$top/VERSION")
unproved=
find_program fast_check_cli "${FAST_CHECK-}"
program=$found
find_program fast_check_source "${FAST_CHECK_SOURCE-}"
source_program=$found
proof="Every function of the programs is proved to meet its contract."
if [ "$unproved" ]; then
  proof="Not everything is proved of the programs in this package."
  version+="~unproved"
  echo "build.sh: $unproved was not proved here, or of other sources: the version is $version" >&2
fi

folder=${1:-$here/out}
mkdir -p "$folder"
folder=$(cd "$folder" && pwd)
made=$(mktemp -d)
trap 'rm -rf "$made"' EXIT
root="$made/nagdrez"
mkdir "$made/debian"
lay_out
write_control
dpkg-deb --root-owner-group --build "$root" "$folder" >&2
echo "$folder/nagdrez_${version}_amd64.deb"
