#!/usr/bin/env bash
# The library, its programs and the hand-written engine of bench/ agree with an independent model of the documents.
cd "$(dirname "$0")" || exit 2
cargo run --release --offline --quiet -j1 -- --quick
