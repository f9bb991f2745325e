#!/bin/sh
# Counts the instructions that the library and the oracle take for single
# requests, the calls alone, by callgrind:
#
#     instructions.sh BENCH NAME...
#
# BENCH is the program made from bench.c; a NAME is a rule file, a text or a line of
# a vector file as FILE:LINE, as bench.c has them.
set -eu

if [ $# -lt 2 ]; then
    echo "usage: $0 BENCH NAME..." >&2
    exit 2
fi
bench=$1
shift

# the C library's functions are looked up at the start, so that the first call of one counts as any other
count() { # side, prefix of its functions, name
    LD_BIND_NOW=1 valgrind --tool=callgrind --callgrind-out-file=/dev/null \
        --toggle-collect="$2_decide" --toggle-collect="$2_judge" --toggle-collect="$2_clash" --toggle-collect="$2_import" \
        --toggle-collect="$2_join" \
        "$bench" -o "$1" "$3" 2>&1 | awk '/Collected *:/ { print $NF }'
}

printf '%-28s %16s %16s %8s\n' '' library oracle ratio
for name in "$@"; do
    library=$(count library ws2s "$name")
    oracle=$(count oracle oracle "$name")
    if [ -z "$library" ] || [ -z "$oracle" ]; then
        echo "$0: no count for $name" >&2
        exit 1
    fi
    printf '%-28s %16s %16s %8s\n' "$(basename "$name")" "$library" "$oracle" \
        "$(awk -v a="$library" -v b="$oracle" 'BEGIN { if (b > 0) printf "%.2f", a / b; else print "-" }')"
done
