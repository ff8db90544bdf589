#!/bin/sh
# Makes the expected output of every test program again, by the second implementation, and compares it with the one stored; `expected.sh
# NAME` prints that of the program of a crate instead. It needs neither the proved library nor any program.
set -eu
cd "$(dirname "$0")"
mkdir -p ../target
CARGO_TARGET_DIR=$(cd ../target && pwd)/compare
PATH=$PATH:${CARGO_HOME:-${HOME:-}/.cargo}/bin # where Rust's installer puts cargo
export CARGO_TARGET_DIR PATH
cargo build --release --bin expected --offline --quiet
exec "$CARGO_TARGET_DIR/release/expected" ../crates "$@"
