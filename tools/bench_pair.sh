#!/bin/sh
# Measures the product against an earlier one:  DELTA_NULL_SRC=FOLDER tools/bench_pair.sh OLD
# OLD is a clone of that commit in which `rt lib` was run in crates/exports; FOLDER has the source of the Rust reference, which draws up the
# modules. Where the code lies in memory moves a class by some parts of a hundred, so each library is linked in four
# places; for each class the mean of the 16 ratios, new over old, the least and the greatest are written. Then the microseconds of the
# questions about rows, of both (bench/questions.c, built with the header of each).
set -e
. "$(dirname "$0")/common.sh"
old=$1/crates/exports/out/libexports.a
[ -f "$old" ] || stop "usage: DELTA_NULL_SRC=FOLDER tools/bench_pair.sh OLD, in which crates/exports/out/libexports.a is made"
old=$(realpath "$old")
old_header=$(realpath "$1/include")
need cc
need_reference
need_product
[ "$product" = linked ] || stop "PRODUCT cannot be measured in pairs: it is no library"
cd "$(dirname "$0")/../bench"
cargo build --release --offline
pairs=target/pairs
rm -rf $pairs
mkdir -p $pairs/modules
target/release/bench write $pairs/modules
cc -O2 -o $pairs/pair pair.c -ldl
for skip in 0 16 32 48; do
    printf '.section .note.GNU-stack\n.text\n.skip %d, 0x90\n' $skip | cc -c -x assembler -o $pairs/skip.o -
    for side in old new; do
        [ $side = old ] && library=$old || library=$DELTA_NULL_LIB
        cc -shared -o $pairs/$side$skip.so $pairs/skip.o -Wl,--whole-archive "$library" -Wl,--no-whole-archive
    done
done
for a in 0 16 32 48; do
    for b in 0 16 32 48; do
        $pairs/pair $pairs/old$a.so $pairs/new$b.so $pairs/modules
    done
done | awk '
    { gsub(/^[0-9]+-|-$/, "", $1) }
    !($1 in count) { order[++classes] = $1; least[$1] = $2; greatest[$1] = $2 }
    { count[$1]++; sum[$1] += log($2); if ($2 < least[$1]) least[$1] = $2; if ($2 > greatest[$1]) greatest[$1] = $2 }
    END { for (i = 1; i <= classes; i++) { c = order[i]; printf "%s mean %.3f, from %.2f to %.2f\n", c, exp(sum[c] / count[c]), least[c], greatest[c] } }'
for side in old new; do
    [ $side = old ] && library=$old header=$old_header || library=$DELTA_NULL_LIB header=../include
    cc -std=c11 -O2 -D_POSIX_C_SOURCE=200809L -I"$header" -o $pairs/questions_$side questions.c "$library"
    echo "questions about rows, $side:"
    $pairs/questions_$side
done
