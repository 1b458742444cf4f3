#!/bin/sh
# Builds the static library and the examples in C and Rust over it, and holds what they print of two module files, of one cut short and of
# a file of no bytes to what is expected. Then what is said of pointers behind aliases, the Rust crate's tests, and the deepest and the
# longest modules on a thread with a stack of 128 KB. Exits nonzero on a difference. Needs rt, cc and cargo on x86-64 Linux.
set -eu
for needed in rt cc cargo; do
    command -v "$needed" >/dev/null || { echo "callers: $needed is needed and is not on the PATH" >&2; exit 2; }
done
cd "$(dirname "$0")/.."
out=target/callers
mkdir -p "$out"
unset DELTA_NULL_LIB # the library made here is the one that is linked

echo "callers: exports is proved first, which takes some minutes from nothing ($out/staticlib.log)" >&2
(cd crates/exports && rt lib) >"$out/staticlib.log" 2>&1 || { tail -5 "$out/staticlib.log"; exit 1; }
for program in check_file decay stack; do
    cc -std=c11 -Wall -Wextra -Wpedantic -Werror -O2 -pthread -Iinclude "callers/c/$program.c" crates/exports/out/libexports.a -o "$out/${program}_c"
done
cargo() { command cargo "$@" --quiet --offline --manifest-path callers/rust/Cargo.toml --target-dir "$out/rust"; }
cargo build --release --example check_file

# expect FILE EXPECTED: both examples print this of the file
expect() {
    for check in "$out/check_file_c" "$out/rust/release/examples/check_file"; do
        "$check" "$1" >"$out/printed" || [ $? -eq 1 ]
        diff "$2" "$out/printed" || { echo "callers: $check differs on $1"; exit 1; }
    done
}

head -c 111 callers/example.module >"$out/short.module"
echo 'refused 2 at 0' >"$out/short.expected"
expect callers/example.module callers/example.expected
expect "$out/short.module" "$out/short.expected"
: >"$out/empty.module"
{ echo 'rows 7 errors 0' && tail -1 callers/example.expected; } >"$out/empty.expected"
expect "$out/empty.module" "$out/empty.expected"
expect crates/dump/stdin callers/dump.expected
"$out/decay_c" >"$out/printed" || { echo 'callers: decay was refused'; exit 1; }
diff callers/decay.expected "$out/printed" || { echo 'callers: decay differs'; exit 1; }
cargo test --release
"$out/stack_c" >"$out/stack.log"
tail -1 "$out/stack.log"
echo 'callers: ok'
