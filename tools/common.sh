# Read in by compare.sh, bench.sh, bench_pair.sh and replay.sh: what they need. PRODUCT and DELTA_NULL_SRC are taken from the caller's folder.

# Says what is wrong and ends.
stop() {
    echo "$0: $1" >&2
    exit 2
}

need() {
    command -v "$1" >/dev/null || stop "$1 is needed and is not on the PATH"
}

# The Rust reference: DELTA_NULL_SRC names the folder of its source, cargo builds it.
need_reference() {
    need cargo
    [ -f "$DELTA_NULL_SRC/lang/lib/frontend/src/type_check.rs" ] ||
        stop "set DELTA_NULL_SRC to the folder of the reference's source, delta-null at commit 280015fba1: the one with lang/lib/frontend in it"
    DELTA_NULL_SRC=$(realpath "$DELTA_NULL_SRC")
    export DELTA_NULL_SRC
}

# The product, whose path or name is put into `product`: the static library of the crate `exports`, proved and built here, or, if PRODUCT is
# set, the program of that path, which answers as oracle/src/product.rs says.
need_product() {
    if [ -n "$PRODUCT" ]; then
        [ -x "$PRODUCT" ] || stop "PRODUCT names no program: $PRODUCT"
        product=$(realpath "$PRODUCT")
        return
    fi
    need rt
    library=$(dirname "$0")/../crates/exports/out/libexports.a
    (cd "$(dirname "$0")/../crates/exports" && rt lib) >&2
    DELTA_NULL_LIB=$(realpath "$library")
    export DELTA_NULL_LIB
    product=linked
}
