#!/usr/bin/env bash
# Runs each client of `fast-check build` whose language is there, on an input with a skeleton and on one with messages, and compares what they print.
#
#   examples/clients/test.sh PROGRAM
set -u
program=$(readlink -f "${1:?usage: test.sh PROGRAM}")
cd "$(dirname "$(readlink -f "${BASH_SOURCE[0]}")")" || exit
made=$(mktemp -d)
trap 'rm -rf "$made"' EXIT
cp ../build_hello.json "$made/ok.json"
FAST_CHECK=$program ../../fast-check-ts input ../package > "$made/messages.json" 2> /dev/null
passed=0 failed=0

# Runs a client by its words on both inputs.
client() {
  local name=$1 input
  shift
  for input in ok messages; do
    if "$@" "$program" "$made/$input.json" > "$made/$name.$input" 2>&1 && cmp -s "$made/$name.$input" "$made/wanted.$input"; then
      passed=$((passed + 1))
    else
      failed=$((failed + 1))
      echo "failed: $name on $input.json"
      sed 's/^/    /' "$made/$name.$input"
    fi
  done
}

for input in ok messages; do python3 client.py "$program" "$made/$input.json" > "$made/wanted.$input"; done
grep -q ' items$' "$made/wanted.ok" && grep -q ': missing-explicit-return-type: ' "$made/wanted.messages" || { echo "failed: client.py"; failed=1; }
client node node client.js
if command -v rustc > /dev/null && [ -d /usr/share/cargo/registry ] && ls /usr/share/cargo/registry/serde_json-* > /dev/null 2>&1; then
  mkdir -p "$made/rust/src" "$made/rust/.cargo"
  cp client.rs "$made/rust/src/main.rs"
  printf '[package]\nname = "client"\nversion = "0.0.0"\nedition = "2021"\n[dependencies]\nserde_json = "1"\n' > "$made/rust/Cargo.toml"
  printf '[source.crates-io]\nreplace-with = "debian"\n[source.debian]\ndirectory = "/usr/share/cargo/registry"\n' > "$made/rust/.cargo/config.toml"
  (cd "$made/rust" && cargo build -q --offline --target-dir "$made/rust/target") && client rust "$made/rust/target/debug/client"
else
  echo "not tried: client.rs needs Debian's librust-serde-json-dev"
fi
if command -v go > /dev/null; then
  GOCACHE="$made/go" go build -o "$made/client-go" client.go && client go "$made/client-go"
else
  echo "not tried: client.go needs Debian's golang-go"
fi
echo "$passed passed, $failed failed"
[ $failed = 0 ]
