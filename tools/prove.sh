#!/bin/sh
# Proves what a program or the library is made of, and builds it:
#
#     prove.sh program NAME    target/bin/NAME
#     prove.sh library NAME    target/staticlib/libNAME.a, of the crate NAME_c that exports it
#
# It prints a line for each crate that it proves, and nothing if nothing has
# changed since: the toolchain knows by content, so it is always asked. Only one
# of these runs at a time in a tree, whoever starts them.
set -u
cd "$(dirname "$0")/.." || exit 2
kind=${1:-} name=${2:-}
command -v rt >/dev/null || { echo 'the Rattle toolchain (rt) is not on the PATH; README.md says what is needed' >&2; exit 2; }

case $kind in
program) crate=$name verb=run made=out/$name result=target/bin/$name ;;
library) crate=${name}_c verb=lib made=out/lib${name}_c.a result=target/staticlib/lib$name.a ;;
*)
    echo "usage: $0 program|library NAME" >&2
    exit 2
    ;;
esac

# the folder itself is locked, which no build removes
exec 9<crates
flock -n 9 || { echo 'another make is proving here; waiting for it'; flock 9; }
mkdir -p "target" "$(dirname "$result")" || exit 2
log=target/$name.log

# A program is run once, on its own input, for that is what builds it: what counts is that it came to be run.
(cd "crates/$crate" && rt "$verb" </dev/null 2>&1; echo "status $?") | tee "$log" |
    awk -v verb="$verb" '
        /^crate [a-z0-9_]+: modules loaded=/ { crate = $2; sub(":", "", crate); checked = $0; sub(/.*checked=/, "", checked) }
        /^logic=proved/ && checked > 0 { print "proved " crate; fflush() }
        /^logic=/ { proved = /^logic=proved/; checked = 0 }
        /^rt: nothing has changed since the last proved build/ { proved = 1 }
        /^rt: running out/ { ran = 1 }
        /^status / { status = $2 }
        END { exit !(verb == "run" ? ran : proved && status == 0) }' ||
    { sed '$d' "$log"; echo "$name NOT PROVED, so nothing is made of it"; rm -f "$result"; exit 1; }

# what has not changed stays, so that nothing is linked again
cmp -s "crates/$crate/$made" "$result" || cp "crates/$crate/$made" "$result"
