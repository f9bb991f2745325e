#!/bin/sh
# Holds the vector files to tests/vectors/LINES: no file and no line is lost, and none runs that is not listed there.
set -eu
cd "$(dirname "$0")/../vectors"
find . -name '*.txt' | LC_ALL=C sort | xargs wc -l | awk '$2 != "total" { print $2, $1 }' | diff LINES -
