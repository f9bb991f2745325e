#!/bin/sh
# Compiles the header, and the examples, as every kind of C and C++ that it is
# said to be for, with many warnings, each an error:
#
#     header.sh ARCHIVE
#
# The examples are linked too, of two files that both have the header, and run.
set -eu
archive=$1
room=$(mktemp -d)
trap 'rm -rf "$room"' EXIT
warnings='-pedantic -Wall -Wextra -Wconversion -Wsign-conversion -Wshadow -Wcast-qual -Wundef -Werror'

# all that the header has is used, as a host would
cat >"$room/uses.c" <<'END'
#include <ws2s.h>
int uses(ws2s_rule rule, const uint8_t *tree, size_t length, uint64_t number);
int uses(ws2s_rule rule, const uint8_t *tree, size_t length, uint64_t number)
{
    uint8_t out[WS2S_MAX_RULE_BYTES], stack[WS2S_MAX_POSITIONS];
    ws2s_written written = ws2s_import(tree, length, out, sizeof out);
    ws2s_fault fault = ws2s_text_fault(tree, length);
    ws2s_clash_list list = ws2s_clash(tree, length, number, stack, sizeof stack);
    ws2s_walk walk;
    int members = rule.place == ws2s_check_tree(tree, length).place;
    ws2s_walk_begin(&walk, tree, length, stack);
    while (ws2s_walk_next(&walk))
        members += ws2s_walk_has(&walk, 0);
    members += written.refusal == fault.refusal && written.place == written.strip && list.count <= sizeof list.parts / sizeof list.parts[0];
    return members + (ws2s_workspace_size(rule, number) > ws2s_out_size(rule, number)) + (ws2s_clash_workspace_size(rule, number) > 0)
        + *ws2s_refusal_text(number) + *ws2s_refusal_help(number) + *WS2S_VERSION;
}
END
cp "$room/uses.c" "$room/uses.cc"
cp examples/host.c "$room/host.cc"
cp examples/import.c "$room/import.cc"

compiled=0
compile() { # COMPILER STANDARD EXTENSION [WARNINGS]
    compiler=$1 standard=$2 extension=$3
    shift 3
    # shellcheck disable=SC2086 # compilers and warnings are several words
    $compiler -std="$standard" $warnings "$@" -Iinclude -c "$room/uses.$extension" -o "$room/uses.o" || { echo "header.sh: not $standard"; exit 1; }
    compiled=$((compiled + 1))
}
for standard in c99 gnu99 c11 c17 gnu17; do compile "${CC:-cc}" "$standard" c -Wmissing-prototypes; done
for standard in c++11 c++14 c++17 c++20; do compile "${CXX:-c++}" "$standard" cc -Wold-style-cast -Wzero-as-null-pointer-constant; done

run_example() { # COMPILER STANDARD EXTENSION FOLDER: the examples, and the unit that uses all
    set -- "$1" "$2" "$4/host.$3" "$room/uses.$3" "$4/import.$3"
    # shellcheck disable=SC2086
    $1 -std="$2" -pedantic -Wall -Wextra -Werror -Iinclude "$3" "$4" "$archive" -o "$room/host"
    said=$("$room/host" samples/seat_with_belt.rul seat belt)
    [ "$said" = 'shown, places: 2
- seat
  - belt' ] || { echo "header.sh: the example says, as $2: $said"; exit 1; }
    said=$("$room/host" samples/cut_short.rul) || [ $? -eq 3 ] || exit 1
    [ "$said" = 'refused 5: the rule'\''s length does not fit its records; it was cut, or has bytes left over
at bit 32 of what was read, counted from 0' ] || { echo "header.sh: the example says, as $2, of a strip that was cut: $said"; exit 1; }
    # shellcheck disable=SC2086
    $1 -std="$2" -pedantic -Wall -Wextra -Werror -Iinclude "$5" "$4" "$archive" -o "$room/import"
    said=$("$room/import" 'ws2s; var1 belt, seat; belt = seat.0;')
    [ "$said" = 'variables 2, records 5: 1205200044000702004080706080' ] || { echo "header.sh: the example says, as $2, of a text: $said"; exit 1; }
}
run_example "${CC:-cc}" c99 c examples
run_example "${CXX:-c++}" c++11 cc "$room"
echo "the header compiles as $compiled kinds of C and C++, the examples as both"
