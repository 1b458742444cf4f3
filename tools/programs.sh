#!/bin/sh
# Runs ./run report, messages, dump and shuffle on a file of no bytes, on files of 1, 8 and 15 bytes and on document 01's module, and holds
# what they write and their status to what is expected:  tools/programs.sh
set -eu
cd "$(dirname "$0")/.."
room=$(mktemp -d)
trap 'rm -rf "$room"' EXIT
failed=0

# expect STATUS FILE PROGRAM MODULE [NUMBER]: the program ends so, and writes this file, to standard error if it is shuffle and refuses
expect() {
    status=$1 wanted=$2
    shift 2
    ended=0
    ./run "$@" >"$room/out" 2>"$room/said" || ended=$?
    [ "$1 $status" != "shuffle 1" ] || cat "$room/said" >>"$room/out"
    if [ $ended -ne "$status" ] || ! diff "$wanted" "$room/out"; then
        echo "programs: ./run $* ended with status $ended, or wrote something else than expected"
        failed=1
    fi
}

: >"$room/empty"
echo 'rows 7 errors 0' >"$room/seven_rows"
for words in '1 1 0 0 0 65537' '2 2 0 0 0 0' '3 3 0 0 0 1' '4 4 0 0 0 1' '5 5 0 0 0 1' '6 6 4 0 0 1' '7 11 6 0 65535 1'; do
    echo "row $words"
done >"$room/fixed_rows"
expect 0 "$room/seven_rows" report "$room/empty"
expect 0 "$room/empty" messages "$room/empty"
expect 0 "$room/fixed_rows" dump "$room/empty"
expect 0 "$room/empty" shuffle "$room/empty" 7

echo 'refused 2 at 0' >"$room/fault"
for length in 1 8 15; do
    head -c $length callers/example.module >"$room/short"
    for program in report messages dump; do
        expect 1 "$room/fault" $program "$room/short"
    done
    expect 1 "$room/fault" shuffle "$room/short" 7
done

head -3 callers/example.expected >"$room/errors"
expect 1 "$room/errors" report callers/example.module
sed -n 4,5p callers/example.expected >"$room/messages"
expect 1 "$room/messages" messages callers/example.module
{ cat "$room/fixed_rows" && echo 'slot 104 1' && echo 'error 1 0 3 8 1 0 0 0' && echo 'error 1 0 3 8 1 0 0 0'; } >"$room/all"
expect 1 "$room/all" dump callers/example.module
expect 0 callers/example.module shuffle callers/example.module 7

[ $failed -eq 0 ] || exit 1
echo 'programs: ok'
