#!/bin/sh
# Stands in for ztxg, and for durable_load, in the test of run.py: it makes an empty file, sleeps in place of a load, and
# prints what a load has to print. It sleeps STAND_IN_SLOW seconds at a dirty limit of 1 MiB, and STAND_IN_FAST seconds
# at any other. With STAND_IN_WRONG its digest is another one.
set -eu
here=$(dirname "$0")

# load WRITES OPS SEED DIRTY FIRST: FIRST transactions are committed before the writes
load() {
    if [ "$4" = 1048576 ]; then sleep "$STAND_IN_SLOW"; else sleep "$STAND_IN_FAST"; fi
    echo "committed $(($5 + 16 * $2))"
    echo "digest $("$here/out/log" contents "${STAND_IN_WRONG:-tank}" "$1" "$2" "$3" | sha256sum | cut -d ' ' -f 1)"
}

case "$1" in
create)
    : > "$2"
    ;;
load)
    [ "$3 $5 $7 $9" = "--workers --ops --seed --dirty" ] || exit 2
    load small "$6" "$8" "${10}" 17
    ;;
*)
    # the words of durable_load: FILE WORKERS WRITES SEED DIRTY [BYTES]
    case $# in
    5) load small "$3" "$4" "$5" 17 ;;
    6) load "$6" "$3" "$4" "$5" 1 ;;
    *) exit 2 ;;
    esac
    ;;
esac
