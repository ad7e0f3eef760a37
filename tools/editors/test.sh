#!/usr/bin/env bash
# Whether editors get a diagnostic, what is typed, and a quick fix from the language server: Neovim and Emacs (eglot) of Debian, headless. One that is not there is
# not tried, and a line says so.
#
#   tools/editors/test.sh [COMMAND]       COMMAND starts the server; it is that of this repository where none is given
set -u
here=$(cd "$(dirname "$(readlink -f "${BASH_SOURCE[0]}")")" && pwd)
built="$here/../../crates/fast_check_cli/out/fast_check_cli"
[ -n "${FAST_CHECK-}" ] || [ ! -x "$built" ] || export FAST_CHECK=$built
export SERVER=${1:-"node $here/../typescript/bin/fast-check-ts.js lsp"}
made=$(mktemp -d)
export XDG_CACHE_HOME="$made/cache" HOME="$made"
trap 'rm -rf "$made"' EXIT
passed=0 failed=0

# Runs an editor in a folder of its own, and compares what it says.
editor() {
  local name=$1 said
  shift
  mkdir "$made/$name"
  printf 'export function twice(n: number) { return 2 * n; }\n' > "$made/$name/index.ts"
  said=$(cd "$made/$name" && timeout 120 "$@" 2>&1 < /dev/null)
  if [ $? = 0 ] && [ "$(tr -d '\r' <<< "$said" | grep -cxE 'a diagnostic|an unsaved edit|Write the missing type|the fix|the end')" = 5 ]; then
    passed=$((passed + 1))
  else
    failed=$((failed + 1))
    echo "failed: $name"
    sed 's/^/    /' <<< "$said"
  fi
}

if command -v nvim > /dev/null; then editor neovim nvim --headless -u NONE -c "luafile $here/neovim.lua"; else echo "not tried: Neovim is not there (Debian: neovim)"; fi
elpa=$(printf -- '-L %s ' /usr/share/emacs/site-lisp/elpa/*)
# shellcheck disable=SC2086
if command -v emacs > /dev/null && emacs -Q --batch $elpa -l eglot 2> /dev/null; then
  editor emacs emacs -Q --batch $elpa -l "$here/emacs.el"
else
  echo "not tried: Emacs with eglot is not there (Debian: emacs-nox, elpa-eglot)"
fi
echo "$passed passed, $failed failed"
[ $failed = 0 ]
