#!/bin/sh
# Builds the product and the driver and measures both checkers (bench/README.md):  DELTA_NULL_SRC=FOLDER tools/bench.sh
# FOLDER has the source of the Rust reference; PRODUCT may name another product (common.sh).
set -e
. "$(dirname "$0")/common.sh"
need_reference
need_product
cd "$(dirname "$0")/../bench"
cargo build --release --offline
exec target/release/bench "$product"
