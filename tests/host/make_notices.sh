#!/bin/sh
# Sees that make gives nothing that is not proved as the sources now stand, and
# proves nothing that it need not:
#
#     make_notices.sh
#
# In a copy of the tree, in a folder with a space in its name, one file of each
# kind that a crate is made of is broken; make must then fail, say that the crate
# is not proved, and print no verdict. Where nothing has changed it must prove
# nothing, and where a program has, that program; and two of them must never
# prove at once. In the tree itself everything must be proved, and the archive
# made. It prints what failed and a count, and ends with status 1 if anything did.
set -u

cd "$(dirname "$0")/../.." || exit 2
room=$(mktemp -d) || exit 2
trap 'rm -rf "$room"' EXIT
trap 'exit 2' HUP INT TERM
copy="$room/a tree"
old=200001010000
# what the make that runs this was told is not for the copy
unset MAKEFLAGS MFLAGS GNUMAKEFLAGS MAKELEVEL

stop() {
    echo "make_notices: $*" >&2
    exit 2
}

# The tree as it is, with what is proved and built of it. All sources look old,
# what is built newer and any edit newer still, as after a while of work. What the
# toolchain keeps of each crate (out/) is large, and no broken source alters it, so
# it is copied once.
begin() {
    mkdir -p "$copy" || stop 'cannot copy the tree'
    [ -d "$copy/crates" ] || cp -Rp crates "$copy/crates" || stop 'cannot copy crates'
    for part in Makefile crates.txt samples include tools target; do
        rm -rf "${copy:?}/$part"
        cp -Rp "$part" "$copy/$part" || stop "cannot copy $part"
    done
    for part in crates/*/src crates/*/specs crates/*/proofs; do
        rm -rf "${copy:?}/$part"
        cp -Rp "$part" "$copy/$part" || stop "cannot copy $part"
    done
    find "$copy/Makefile" "$copy/crates.txt" "$copy"/crates/*/src "$copy"/crates/*/specs "$copy"/crates/*/proofs "$copy/tools" -exec touch -t "$old" {} + 2>/dev/null
    touch -t 200001030000 "$copy"/target/bin/* "$copy"/target/staticlib/*
}

# The same, with a word too many in a file.
spoil() { # file
    begin
    printf '\nnonsense\n' >>"$copy/$1"
}

# The same, with a file as sed alters it.
alter() { # file script
    begin
    sed "$2" "$1" >"$copy/$1"
    ! cmp -s "$1" "$copy/$1" || stop "nothing to alter in $1"
}

run_make() { make -C "$copy" --no-print-directory "$1" RULE="$rule" >"$room/said" 2>&1; }
rule=samples/first_inside.rul
verdict() { grep -E '^(shown|none|larger|refused) ' "$room/said"; }

passed=0 failed=0
count() { # what was tried; 'wrong' says what went wrong
    if [ -z "$wrong" ]; then
        passed=$((passed + 1))
        return
    fi
    failed=$((failed + 1))
    echo "$1: $wrong; it said:"
    tail -n 20 "$room/said"
}

runs() { # what was tried
    wrong=
    run_make run || wrong='make run fails'
    [ "$(verdict)" = 'shown 2 4 12B800' ] || wrong='make run does not print the verdict'
    count "$1"
}

refused() { # target, what was tried, what make must mention
    wrong=
    run_make "$1" && wrong="make $1 succeeds"
    [ -z "$(verdict)" ] || wrong="make $1 prints a verdict"
    # a crate's own check names its files from its folder on
    grep -q 'NOT PROVED' "$room/said" && grep -qF "${3#crates/*/}" "$room/said" ||
        wrong=${wrong:-"make $1 fails for another reason"}
    count "$2"
}

first() { # files of one kind
    [ -f "${1:-}" ] || stop "no file ${1:-of a kind}"
    echo "$1"
}

says() { # target, what make must print
    wrong=
    run_make "$1" || wrong="make $1 fails"
    [ "$(cat "$room/said")" = "$2" ] || wrong=${wrong:-"make $1 says something else than: $2"}
    count "make $1"
}

begin
says run 'shown 2 4 12B800'
says target/staticlib/libws2s.a ''
rule='my own rule.rul'
cp samples/one_part.rul "$copy/$rule"
says run 'shown 1 3 11C0'
rule=samples/first_inside.rul
printf '\nfn one_more() {}\n' >>"$copy/crates/verdict/src/main.rt"
says run 'proved verdict
shown 2 4 12B800'
rm "$copy/target/bin/verdict"
says run 'shown 2 4 12B800'
echo 'spoilt' >>"$copy/target/staticlib/libws2s.a"
says target/staticlib/libws2s.a ''
cmp -s target/staticlib/libws2s.a "$copy/target/staticlib/libws2s.a" || stop 'the archive is not made as it was'

# a proof in a folder, by a term that does not prove what is asked
deep=$(first "$(grep -l '^returns c =$' crates/report/proofs/*/*/*/Answers.antt | head -n 1)") || exit
alter "$deep" '/^returns c =$/{s/$/ c/;q}'
refused run "$deep broken" "$deep:"
cp "$deep" "$copy/$deep"
runs "$deep put back"

# the other kinds, in crates near the top, since what lies above a crate that was broken is proved again
inner=$(first crates/verdict/proofs/*/Invariants.antt) && proof=$(first crates/report/proofs/*.antt) &&
    spec=$(first crates/program/specs/*.antt) && source=$(first crates/verdict/src/*.rt) || exit
for file in "$inner" "$proof" "$spec" "$source"; do
    spoil "$file"
    refused run "$file broken" "$file:"
done
spoil "$source"
touch -t "$old" "$copy/$source"
refused run "$source broken, and looking old" "$source:"
alter crates.txt 's/^\(verdict:.*\) program/\1/'
refused run 'a crate missing in crates.txt' 'verdict NOT PROVED'

# the archive
deep=$(first crates/ws2s/proofs/*/*/Answers.antt) || exit
spoil "$deep"
refused target/staticlib/libws2s.a "$deep broken" "$deep:"

# several at once, with a toolchain that tells when two of it run
begin
mkdir "$room/bin" && cat >"$room/bin/rt" <<'END'
#!/bin/sh
mkdir "$ROOM/proving" 2>/dev/null || echo together >>"$ROOM/runs"
sleep 0.2
mkdir -p out
case $1 in
run) printf '#!/bin/sh\n' >out/verdict; chmod +x out/verdict; echo 'rt: running out/verdict' ;;
lib) echo '!<arch>' >out/libws2s_c.a; echo 'logic=proved' ;;
esac
echo "$1" >>"$ROOM/runs"
rmdir "$ROOM/proving"
END
chmod +x "$room/bin/rt"
rm -rf "$copy/target" "$copy"/crates/verdict/out "$copy"/crates/ws2s_c/out
wrong=
for target in run target/staticlib/libws2s.a run target/staticlib/libws2s.a; do
    ROOM=$room PATH=$room/bin:$PATH make -j4 -C "$copy" "$target" >>"$room/said" 2>&1 &
done
wait
[ "$(sort "$room/runs" | uniq -c | tr -s ' \n' ' ')" = ' 2 lib 2 run ' ] || wrong="not one after the other: $(sort "$room/runs" | uniq -c)"
count 'four makes at once'

echo "make proves what has changed, and that alone: $passed passed, $failed failed"
[ "$failed" -eq 0 ]
