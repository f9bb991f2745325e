#!/bin/sh
# Makes an archive with the library's names whose functions are the oracle's, to try
# the tests, the benchmark and the example without the library:
#
#     stand_in.sh FOLDER ARCHIVE
#
# from the top of the repository. FOLDER is tests/oracle, or a copy of it with something
# wrong that a test should notice. There is no list of operations here: each function
# oracle_NAME becomes ws2s_NAME, and no other name is seen, so that the oracle itself
# may be linked too.
set -eu
folder=$1 archive=$2
room=$(mktemp -d)
trap 'rm -rf "$room"' EXIT
for file in "$folder"/*.c; do
    ${CC:-cc} -std=c11 -O2 -Iinclude -Itests/oracle -c "$file" -o "$room/$(basename "$file").o"
done
ld -r "$room"/*.o -o "$room/all"
nm "$room/all" | sed -n 's/.* T oracle_\(.*\)/oracle_\1 ws2s_\1/p' >"$room/names"
objcopy --redefine-syms="$room/names" "$room/all"
objcopy --wildcard --keep-global-symbol='ws2s_*' "$room/all"
rm -f "$archive"
ar rcs "$archive" "$room/all"
