#!/bin/sh
# Builds the product and the oracle and compares them on the modules by hand, on COUNT modules and on TABLES tables of rows from a seed:
#   DELTA_NULL_SRC=FOLDER tools/compare.sh [COUNT [SEED [TABLES]]]
# FOLDER has the source of the Rust reference; PRODUCT may name another product (common.sh), which is asked about modules alone. Files and
# tables on which the two differ, as small as can be found, go to target/differences. Status 0: no difference.
set -e
. "$(dirname "$0")/common.sh"
count=${1:-100000}
seed=${2:-20261115}
tables=${3:-20000}
case $count$seed$tables in *[!0-9]*) stop 'usage: tools/compare.sh [COUNT [SEED [TABLES]]], all decimal numbers' ;; esac
need_reference
need_product
cd "$(dirname "$0")/../oracle"
cargo build --release --offline
status=0
target/release/oracle compare "$seed" "$count" "$product" ../target/differences || status=$?
if [ "$product" = linked ]; then
    target/release/oracle relations "$seed" "$tables" linked ../target/differences || status=$?
fi
exit $status
