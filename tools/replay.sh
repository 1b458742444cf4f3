#!/bin/sh
# Makes the data of the program `replay` from the oracle:  DELTA_NULL_SRC=FOLDER tools/replay.sh
# FOLDER has the source of the Rust reference (common.sh). Writes crates/replay/stdin (the cases), stdout (what the program has to print) and
# cases.txt (a name for each case, in order).
set -e
. "$(dirname "$0")/common.sh"
need_reference
cd "$(dirname "$0")/../oracle"
cargo build --release --offline
target/release/oracle replay 2200 1650 300 ../crates/replay/stdin ../crates/replay/cases.txt >../crates/replay/stdout
cat ../crates/replay/stdout
