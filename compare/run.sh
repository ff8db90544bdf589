#!/bin/sh
# Builds the comparison program against the proved library and runs it: run.sh [SCALE], a percentage of the usual number of inputs. With a
# small SCALE not every refusal may occur, and then it fails.
# `run.sh benchmark` measures the library against the second implementation instead, `run.sh drift` how far mass drifts towards high cell
# numbers under the library's rounding. Library and programs are taken from ../target.
set -eu
cd "$(dirname "$0")"
target=$(cd ../target && pwd)
library=$target/staticlib
programs=$target/bin
# The library's checksum is among the flags, so that another library means another build.
sum=$(cksum <"$library/liblegzhuro_c.a" | tr ' ' '-')
RUSTFLAGS="-L native=$library -C metadata=$sum"
CARGO_TARGET_DIR=$target/compare
PATH=$PATH:${CARGO_HOME:-${HOME:-}/.cargo}/bin # where Rust's installer puts cargo
export RUSTFLAGS CARGO_TARGET_DIR PATH
if [ "${1:-}" = benchmark ]; then
    cargo build --profile benchmark --features library --bin benchmark --offline --quiet
    exec "$CARGO_TARGET_DIR/benchmark/benchmark"
fi
if [ "${1:-}" = drift ]; then
    cargo build --release --features library --bin drift --offline --quiet
    exec "$CARGO_TARGET_DIR/release/drift"
fi
# All programs, so that those which only measure go on building.
cargo build --release --features library --bins --offline --quiet
exec "$CARGO_TARGET_DIR/release/compare" "$programs" ../crates "$@"
