#!/bin/sh
# Holds the C header to what the library exports, and both to the archive:
#
#     exports.sh EXPORTS HEADER ARCHIVE SHARED
#
# EXPORTS is the source of the exported functions, crates/CRATE/src/MODULE.rt. Their
# structures stand there too, or in the crate beside it that a line
# `use CRATE::MODULE::NAME;` takes them from. The header's structures must have the
# same fields in the same places, and its functions the same results and the same
# parameters, by type, name and order. The archive and the shared library must define
# just these functions, and take nothing from outside but memcpy and memset; the
# archive must have no variables of its own, and the shared library's soname must be
# that of the header's version. It prints what differs, and ends with status 1 if
# anything does.
set -u

if [ $# -ne 4 ]; then
    echo "usage: $0 EXPORTS HEADER ARCHIVE SHARED" >&2
    exit 2
fi
exports=$1 header=$2 archive=$3 shared=$4
room=$(mktemp -d) || exit 2
trap 'rm -rf "$room"' EXIT
trap 'exit 2' HUP INT TERM
: >"$room/exported" && : >"$room/declared" && : >"$room/defined" || exit 2
bad=0

differ() {
    echo "exports: $1:"
    head -n 20 "$room/said"
    bad=1
}

same() { # what two lists of names are, the lists
    sort "$room/$2" >"$room/$2.sorted"
    sort "$room/$3" | diff "$room/$2.sorted" - >"$room/said" || differ "$1 are not the same"
}

crates=$(dirname "$(dirname "$(dirname "$exports")")")
awk -v room="$room" -v crates="$crates" -f "$(dirname "$0")/exports.awk" "$exports" "$header" || bad=1
same 'the functions exported and those of the header' exported declared
cp "$header" "$room/ws2s.h" || exit 2
# shellcheck disable=SC2086 # CC may have words after the compiler's name
${CC:-cc} -std=c11 -Wall -Wextra -Werror -fsyntax-only "$room/both.c" >"$room/said" 2>&1 ||
    differ 'a C compiler says that the header is another'

# What a library defines and wants. Weak names that a linker puts into every
# shared library are none of its own.
symbols() { # what it is, the list of its names, nm's options, the library
    what=$1 list=$2
    shift 2
    : >"$room/$list"
    nm -P -g "$@" >"$room/symbols" || exit 2
    awk -v list="$room/$list" '
        NF < 2 { next } # the name of a part of an archive
        $2 ~ /^[vw]$/ && $1 ~ /^(_ITM_|__cxa_finalize|__gmon_start__)/ { next }
        $2 ~ /^[Uvw]$/ { sub(/@.*/, "", $1); wanted[$1]; next }
        { defined[$1]; print $1 >list }
        END {
            for (name in wanted)
                if (!(name in defined) && name != "memcpy" && name != "memset") print name
        }' "$room/symbols" >"$room/said"
    [ ! -s "$room/said" ] || differ "the $what takes from outside"
    same "the functions exported and those of the $what" exported "$list"
}
symbols archive defined "$archive"
# nothing that can be written is kept between calls, or shared by threads
objdump -h "$archive" >"$room/sections" || exit 2
awk '$2 ~ /^\.t?(data|bss)/ && $3 !~ /^0+$/ && $2 !~ /^\.data\.rel\.ro/' "$room/sections" >"$room/said"
[ ! -s "$room/said" ] || differ 'the archive has state of its own'
symbols 'shared library' dynamic -D "$shared"
soname=libws2s.so.$(sed -n 's/^#define WS2S_VERSION "\([0-9]*\)\..*"$/\1/p' "$header")
readelf -d "$shared" >"$room/said" || exit 2
grep -q "(SONAME).*\[$soname\]" "$room/said" || differ "the shared library's soname is not $soname"

[ "$bad" -ne 0 ] || echo "exports: $(cat "$room/count") agree with the header and both libraries"
exit "$bad"
