#!/usr/bin/env bash
# The benchmark's policies hold every decision, and it builds, finds both engines' answers the same and runs to its end.
set -euo pipefail
cd "$(dirname "$0")/.."
PERMIT=$(realpath target/bin/permit)
export PERMIT
cargo test --release --offline --quiet -j1 -p bench
cargo run --profile measured --offline --quiet -j1 -p bench -- --quick
