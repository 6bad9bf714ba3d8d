#!/usr/bin/env bash
# Measures the Rust side of the static library beside serde_json, in one run, and prints a table. It
# asserts nothing. Usage: tools/bench_bindings.sh LIBRARY; run it while nothing else runs. It wants cargo
# and Debian's librust-serde-json-dev and librust-indexmap-dev, and says so where they are not there.
set -u
library=$(realpath "${1:-}" 2> /dev/null)
if [ ! -f "$library" ]; then
  echo "there is no library ${1:-}"
  exit 1
fi
if ! command -v cargo > /dev/null || ! ls -d /usr/share/cargo/registry/serde_json-* > /dev/null 2>&1; then
  echo 'left out: there is no cargo, or no librust-serde-json-dev'
  exit 0
fi
cd "$(dirname "${BASH_SOURCE[0]}")/../bindings/rust/benches" || exit 1
work=$(mktemp -d)
trap 'rm -rf "$work"' EXIT
SJ_C_LIB=$library CARGO_TARGET_DIR=$work cargo run --offline --quiet --release
