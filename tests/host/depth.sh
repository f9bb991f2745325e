#!/bin/sh
# Walks shown trees with stacks of as many entries as states are told, with the
# address sanitizer:
#
#     depth.sh DEPTH COMMAND ARCHIVE FILE...
#
# from the top of the repository, with the compiler CC and the sanitizer's flags in
# SANITIZE. The example host walks every tree of the files (depth.c); the command
# draws the deepest of those that take all entries but one in every form, and the
# deepest tree that can be handed in. Both must be stopped if they lend one entry fewer
# than that tree takes, or this would show nothing.
set -eu
depth=$1 command=$2 archive=$3
shift 3
room=$(mktemp -d)
trap 'rm -rf "$room"' EXIT
build() { # NAME FILE...: a program of these files
    name=$1
    shift
    # shellcheck disable=SC2086 # flags are several words
    ${CC:-cc} -std=c11 -O1 $SANITIZE -Iinclude -Icli "$@" "$archive" -o "$room/$name"
}
short() { # FILE WORDS COPY: a copy in which so many entries are two fewer
    sed "s/$2/$2 - 2/" "$1" >"$room/$3"
    [ "$(diff "$1" "$room/$3" | grep -c '^>')" -eq 1 ] || { echo "depth.sh: $1 has not one stack of $2"; exit 1; }
}
build host examples/host.c
build ws2s cli/ws2s.c cli/words.c cli/drawing.c cli/text.c
short examples/host.c 'malloc(v\.states' host.c
short cli/ws2s.c 'v\.length, v\.states' ws2s.c
build short-host "$room/host.c"
build short-ws2s "$room/ws2s.c" cli/words.c cli/drawing.c cli/text.c

"$depth" "$room/host" "$room" "$@"
stopped() { # WHAT PROGRAM...: the sanitizer ends it
    what=$1
    shift
    if "$@" >"$room/said" 2>&1 || ! grep -q 'AddressSanitizer: [a-z-]*-overflow' "$room/said"; then
        echo "depth.sh: $what one entry too few is not noticed"
        exit 1
    fi
}
stopped 'a host with' "$room/short-host" "$room/deepest.rul"

# 255 nodes one inside the other: 1 and the label 1 for each, then 0 for 256 empty trees
{ printf '\021'; i=0; while [ $i -lt 63 ]; do printf '\377'; i=$((i + 1)); done; printf '\374'; i=0; while [ $i -lt 32 ]; do printf '\000'; i=$((i + 1)); done; } >"$room/chain.tree"
for form in --outline --hex --strip --dot --svg; do
    "$room/ws2s" decide "$form" "$room/deepest.rul" >"$room/drawn"
    "$command" decide "$form" "$room/deepest.rul" | cmp - "$room/drawn"
    case $form in --hex | --strip) continue ;; esac
    stopped "decide $form with" "$room/short-ws2s" decide "$form" "$room/deepest.rul"
    "$room/ws2s" tree "$form" "$room/chain.tree" >"$room/drawn"
    "$command" tree "$form" "$room/chain.tree" | cmp - "$room/drawn"
done
echo 'the host and the command walk with a stack of as many entries as states are told'
