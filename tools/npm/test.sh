#!/usr/bin/env bash
# Tests of the npm package: builds it, installs it into an empty folder without a network, and uses it there as its README says. Prints what fails, and
# `N passed, M failed` at the end.
#
#   tools/npm/test.sh            in a folder of this machine
#   tools/npm/test.sh --fresh    and in a new Debian 12, which debootstrap fetches, by the steps of examples/ci/Dockerfile: some minutes, as root
#
# The programs are those of the variables FAST_CHECK and FAST_CHECK_SOURCE, else the proved ones of this repository, else those that tools/unproved compiles. The
# compiler is that of the variable TYPESCRIPT, else Debian's. Needs npm.
set -u
export LC_ALL=C
here=$(cd "$(dirname "$(readlink -f "${BASH_SOURCE[0]}")")" && pwd)
top=$(cd "$here/../.." && pwd)
program=${FAST_CHECK:-$top/crates/fast_check_cli/out/fast_check_cli}
[ -x "$program" ] || program=$("$top/tools/unproved") || exit 5
source_program=${FAST_CHECK_SOURCE:-$top/crates/fast_check_source/out/fast_check_source}
[ -x "$source_program" ] || source_program=$("$top/tools/unproved" --source) || exit 5
command -v npm > /dev/null || { echo "test.sh: npm is not there; on Debian: apt-get install -y npm" >&2; exit 5; }
compiler=${TYPESCRIPT:-/usr/share/nodejs/typescript}
unset TYPESCRIPT FAST_CHECK FAST_CHECK_SOURCE
made=$(mktemp -d)
export XDG_CACHE_HOME="$made/cache" npm_config_cache="$made/npm" npm_config_update_notifier=false
trap 'rm -rf "$made"' EXIT
passed=0 failed=0

# Counts a test by the status of the words behind its name.
test_that() {
  local name=$1
  shift
  if "$@" > "$made/said" 2>&1; then
    passed=$((passed + 1))
  else
    failed=$((failed + 1))
    echo "failed: $name"
    sed 's/^/    /' "$made/said"
  fi
}

# Whether words end with a status, and say a text.
ends_with() {
  local status=$1 text=$2 said
  shift 2
  said=$("$@" 2>&1 < /dev/null)
  [[ $? = "$status" && $said == *"$text"* ]] || { echo "$said"; return 1; }
}

builds() {
  FAST_CHECK=$program FAST_CHECK_SOURCE=$source_program "$here/build.sh" "$made" && mv "$made"/nagdrez-*.tgz "$made/nagdrez.tgz"
}

installs() {
  mkdir "$made/it" && cd "$made/it" && npm init -y > /dev/null && npm install --offline --no-audit --no-fund "$made/nagdrez.tgz" &&
    ln -s "$compiler" node_modules/typescript && printf 'export function twice(n: number) { return 2 * n; }\n' > index.ts
}

# Whether each command of the README that needs no network runs, but for those of a shell.
readme_is_right() {
  ends_with 1 "index.ts:1:17" npx nagdrez check && ends_with 0 "+export function twice(n: number): number" npx nagdrez fix --dry-run &&
    ends_with 0 "usage: nagdrez check" npx nagdrez help check &&
    ends_with 0 "# missing-explicit-return-type" npx nagdrez explain missing-explicit-return-type && ends_with 1 '"message":"1"' npx nagdrez check --format badge && ends_with 1 "::error file=index.ts,line=1" npx nagdrez check --format github &&
    ends_with 0 "1 type written in 1 file" npx nagdrez fix && ends_with 0 "0 messages" npx nagdrez check
}

is_imported() {
  cat > use.mjs << 'END'
import { check, fix, skeleton, diff, version } from "nagdrez";
const { status, messages } = await check(".");
const { modules } = await skeleton(".", { declarations: true });
console.log(status, messages.length, modules[0].text.trim(), typeof fix, typeof diff, version.split("-")[0]);
END
  ends_with 0 "0 0 export declare function twice(n: number): number; function function $(< "$top/VERSION")" node use.mjs
}

# Whether a program of TypeScript may use the types, as both kinds of resolution find them.
is_typed() {
  local kind
  cat > use.ts << 'END'
import { check, type CheckResult, type Message } from "nagdrez";
export async function codes(dir: string): Promise<string[]> {
  const result: CheckResult = await check(dir, { allow: ["missing-module"], signal: new AbortController().signal });
  return result.messages.map((each: Message) => each.code);
}
END
  for kind in node16 node10; do
    [ $kind = node10 ] && grep -q '"version": "[6-9]' "$compiler/package.json" && continue
    node "$compiler/lib/tsc.js" --strict --noEmit --target es2021 --lib es2021,dom --module "${kind/node10/commonjs}" --moduleResolution "${kind/node10/node}" use.ts || return 1
  done
}

passes_its_own_check() {
  ends_with 0 "1 public module, 0 messages" npx nagdrez check node_modules/nagdrez
}

# Whether the package has what it says, and names no file that it lacks.
is_complete() {
  (cd node_modules/nagdrez && sha256sum -c SHA256) && [ -s node_modules/nagdrez/LICENSE ] && [ -s node_modules/nagdrez/CHANGELOG.md ] &&
    ! { npx nagdrez --help; for name in check fix skeleton input diff report lsp serve; do npx nagdrez help $name; done; } | grep -E 'fast-check-ts|\./fast-check|--unproved|docs/' &&
    ! grep -nE '\]\((docs|\.\.)/' node_modules/nagdrez/README.md
}

# Whether it reads a clean package by its own program alone.
reads_without_compiler() {
  TYPESCRIPT=/nowhere ends_with 0 "0 messages" npx nagdrez check --reader source --no-cache --no-own-compiler .
}

says_its_platform() {
  ends_with 5 "runs on Linux x86-64, and this is darwin x64" node -e 'Object.defineProperty(process, "platform", { value: "darwin" }); process.argv.splice(1, 0, "nagdrez"); process.argv.push("check"); require("./node_modules/nagdrez/bin/nagdrez.js")'
}

speaks_to_editors() {
  local text='{"jsonrpc":"2.0","id":1,"method":"initialize","params":{"capabilities":{}}}'
  { printf 'Content-Length: %s\r\n\r\n%s' ${#text} "$text"; sleep 2; } | npx nagdrez lsp | grep -q '"name":"nagdrez"'
}

# Whether what the examples for GitHub and GitLab run writes what they hand on.
ci_examples_run() {
  local gitlab github sarif
  printf 'export function slow(n: number) { return 2 * n; }\n' > index.ts
  gitlab=$(sed -n 's/^ *- \(npx nagdrez .*\)$/\1/p' "$top/examples/ci/gitlab.yml")
  github=$(sed -n "s/^ *run: '\(.*--format github.*\)'$/\1/p" "$top/action.yml")
  sarif=$(sed -n "s/^ *run: '\(.*--format sarif.*\)'$/\1/p" "$top/action.yml")
  mkdir -p "$made/runner" && ln -sfn "$PWD" "$made/runner/nagdrez" && export RUNNER_TEMP="$made/runner" FOLDER=.
  ends_with 1 "" bash -c "$gitlab" && grep -q '<testsuites' slow-types.xml && ends_with 1 "::error file=index.ts" bash -c "$github" && bash -c "$sarif" &&
    node -e 'const log = JSON.parse(require("fs").readFileSync(process.argv[1])); process.exit(log.runs[0].results.length === 1 ? 0 : 1)' "$RUNNER_TEMP/nagdrez.sarif"
}

# Whether pre-commit reports a changed file alone, and writes its types, by the hooks of this repository.
hooks_work() {
  local repository="$made/hooks"
  git init -q "$repository" && cd "$repository" && export PATH="$made/it/node_modules/.bin:$PATH" PRE_COMMIT_HOME="$made/pre-commit" || return 1
  printf 'export * from "./other";\nexport function twice(n: number) { return 2 * n; }\n' > index.ts
  printf 'export function slow(n: number) { return 2 * n; }\n' > other.ts
  ln -s "$made/it/node_modules" node_modules && printf 'node_modules\n' > .gitignore && git add .
  local said
  said=$(pre-commit try-repo "$top" nagdrez --files other.ts 2>&1) && { echo "$said"; return 1; }
  [[ $said == *"other.ts:1:17"* && $said != *"index.ts:2"* ]] || { echo "$said"; return 1; }
  pre-commit try-repo "$top" nagdrez-fix --files other.ts > "$made/said-fix" 2>&1
  grep -q 'slow(n: number): number' other.ts && ! grep -q ': number {' index.ts || { cat "$made/said-fix" other.ts index.ts; return 1; }
}

# Whether the steps of the Dockerfile, with Debian's Node and TypeScript in place of those of its image, give a tool that answers.
answers_afresh() {
  local fresh="$made/fresh" mirror
  mirror=$(apt-get indextargets --format '$(REPO_URI)' 'Identifier: Packages' 'Origin: Debian' 'Component: main' | grep -v security | sort -u | head -n 1)
  debootstrap --variant=minbase bookworm "$fresh" "$mirror" > /dev/null &&
    DEBIAN_FRONTEND=noninteractive chroot "$fresh" apt-get install -y -qq --no-install-recommends nodejs npm node-typescript < /dev/null > /dev/null && cp "$made/nagdrez.tgz" "$fresh/tmp" && mkdir "$fresh/package" &&
    printf 'export function twice(n: number) { return 2 * n; }\n' > "$fresh/package/index.ts" &&
    chroot "$fresh" npm install --global --offline --no-audit --no-fund /tmp/nagdrez.tgz &&
    ends_with 1 "index.ts:1:17" chroot "$fresh" sh -c 'cd /package && nagdrez check' && ends_with 0 "1 type written" chroot "$fresh" sh -c 'cd /package && nagdrez fix' &&
    ends_with 0 "0 messages" chroot "$fresh" sh -c 'cd /package && nagdrez check' && asks_in_editor
}

# Whether Debian's Neovim gets a diagnostic and a quick fix there.
asks_in_editor() {
  DEBIAN_FRONTEND=noninteractive chroot "$fresh" apt-get install -y -qq --no-install-recommends neovim < /dev/null > /dev/null && cp "$here/../editors/neovim.lua" "$fresh/tmp" &&
    printf 'export function twice(n: number) { return 2 * n; }\n' > "$fresh/package/index.ts" &&
    ends_with 0 "the end" chroot "$fresh" sh -c 'cd /package && SERVER="nagdrez lsp" nvim --headless -u NONE -c "luafile /tmp/neovim.lua"'
}

test_that "the package is built" builds
test_that "it is installed without a network" installs
cd "$made/it" 2> /dev/null || { echo "$passed passed, $failed failed"; exit 1; }
test_that "the README is right" readme_is_right
test_that "a program imports it" is_imported
test_that "its types serve" is_typed
test_that "it passes its own check" passes_its_own_check
test_that "it is complete" is_complete
test_that "it reads without a compiler" reads_without_compiler
test_that "another platform is told" says_its_platform
test_that "it speaks to editors" speaks_to_editors
test_that "the examples for CI run" ci_examples_run
if command -v pre-commit > /dev/null; then test_that "its hooks work" hooks_work; else echo "not tried: pre-commit is not there (Debian: pre-commit)"; fi
[ "${1-}" != --fresh ] || test_that "it answers in a new Debian" answers_afresh
echo "$passed passed, $failed failed"
[ $failed = 0 ]
