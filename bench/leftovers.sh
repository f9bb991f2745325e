#!/bin/sh
# Reads off what records that nothing uses cost, by callgrind:
#
#     leftovers.sh BENCH
#
# BENCH is the program made from bench.c. For both pairs of lines of leftovers.txt, a
# rule of two records and one of 128 that reaches the same two, it prints the
# instructions of each call; the same less those of reading and zeroing; the ratio of
# the latter, and what each record left over adds to them. Reading is what the call
# takes without an out buffer, which is refused (13) once the strip is checked, and of
# the library, which reads the checked strip again, its function "decode". Zeroing is
# reckoned from lines 9 and 10, whose work differs in nothing but the bytes to be
# zeroed. The status is 1 if a ratio of the library is above 1.2. Where the compiler
# has put "decode" into its caller it cannot be counted apart: this is then said, its
# reading is in the figures, and the status is 1 if a record left over takes more than
# 100 instructions with it.
set -eu

if [ $# -ne 1 ]; then
    echo "usage: $0 BENCH" >&2
    exit 2
fi
here=$(dirname "$0")
lines=$here/leftovers.txt
names=
for number in 1 2 3 4 5 6 7 8 9 10; do names="$names $lines:$number"; done
counts=$(mktemp)
again=$(mktemp)
trap 'rm -f "$counts" "$again"' EXIT
# shellcheck disable=SC2086 # a word for each line
"$here/instructions.sh" "$1" $names >"$counts"
for number in 1 2 5 6; do
    valgrind --tool=callgrind --callgrind-out-file=/dev/null --toggle-collect=rules::decode::decode \
        "$1" -o library "$lines:$number" 2>&1 | awk -v line="$number" '/Collected *:/ { print line, $NF }'
done >"$again"

awk '
    function each_byte(side) { return (count[side, 10] - count[side, 9]) / (asked[10] - asked[9]) }
    function build(side, line) { return count[side, line] - count[side, line + 2] - decode[side, line] - each_byte(side) * asked[line] }
    function row(side, name, line,    two, all, each) {
        two = build(side, line)
        all = build(side, line + 1)
        printf "%-8s %-20s %10d %12d %10d %12d %8.2f %8.1f\n", side, name, count[side, line], count[side, line + 1], two, all, all / two,
               (all - two) / 126
        each = (all - two) / 126
        return apart ? all / two > 1.2 : each > 100
    }
    FILENAME == ARGV[1] { asked[FNR] = $5; next }
    FILENAME == ARGV[2] { decode["library", $1] = $2; apart += $2; next }
    FNR > 1 { count["library", FNR - 1] = $2; count["oracle", FNR - 1] = $3 }
    END {
        printf "%-8s %-20s %10s %12s %10s %12s %8s %8s\n", "", "", "of 2", "of 128", "of 2, less", "of 128, less", "ratio", "each"
        high = row("library", "exists, 8 variables", 1)
        high += row("library", "not, 1 variable", 5)
        row("oracle", "exists, 8 variables", 1)
        row("oracle", "not, 1 variable", 5)
        printf "zeroing: %.2f instructions for a byte, the oracle %.2f\n", each_byte("library"), each_byte("oracle")
        if (!apart)
            print "the library reads the checked strip again in no function of its own: that is counted here"
        exit high > 0
    }' "$lines" "$again" "$counts"
