#!/bin/sh
# Holds what the documents show to what the programs do:
#
#     documents.sh VERDICT COMMAND ARCHIVE
#
# from the top of the repository.
# - Every command that README.md, samples/README.md and the manual pages show after
#   a prompt is run, and must write what they show after it.
# - The README's C programs are the examples; its table of refusals and those of
#   ws2s(3) have the header's names, texts and places; the manual's structures are
#   the header's; the manual's examples print what it says.
# - The manual's synopsis of the command is the one that --help has, and the README and
#   the manual have every subcommand.
# - Every sample has a row in samples/README.md, with its records as the command
#   prints them and the verdict program's verdict.
# - The picture is the one that the command draws.
# - Every target of make is in `make help` and in the README.
# - The README has the number of crates that `make run` proves.
# - No contract or definition cites a file under proofs/ of ours, as docs/PROOFS.md says.
# It prints what differs, and ends with status 1 if anything does.
set -eu
verdict=$PWD/$1 command=$PWD/$2 archive=$PWD/$3
room=$(mktemp -d)
trap 'rm -rf "$room"' EXIT
failed=0
differs() { # WHAT EXPECTED GOT
    [ "$2" = "$3" ] && return
    printf '%s: documented\n%s\n%s: happened\n%s\n' "$1" "$2" "$1" "$3"
    failed=1
}

# ---- What is shown after a prompt

mkdir "$room/bin" "$room/tree"
ln -s "$verdict" "$room/bin/verdict"
ln -s "$command" "$room/bin/ws2s"
for part in samples include examples target; do ln -s "$PWD/$part" "$room/tree/$part"; done
transcripts=0
transcript() { # FILE [SED]: the indented lines that have a prompt, and those up to the next that is not indented
    sed "${2:-}" "$1" | awk -v room="$room" '
        !/^    / { inside = 0; next }
        { sub(/^    /, "") }
        /^\$ / { inside = 1; print substr($0, 3) >(room "/shown.sh"); print "+ " substr($0, 3) >(room "/shown"); count++; next }
        inside { print >(room "/shown") }
        END { print count + 0 >(room "/count") }'
    awk '{ q = $0; gsub(/'\''/, "'\''\\'\'''\''", q); print "printf '\''+ %s\\n'\'' '\''" q "'\''"; print }' "$room/shown.sh" >"$room/run.sh"
    (cd "$room/tree" && PATH="$room/bin:$PATH" sh "$room/run.sh" >"$room/happened" 2>&1 </dev/null) || true
    differs "$1" "$(cat "$room/shown")" "$(cat "$room/happened")"
    transcripts=$((transcripts + $(cat "$room/count")))
    rm -f "$room/shown" "$room/shown.sh"
}
transcript README.md
transcript samples/README.md
unroff='s/\\-/-/g; s/\\(ib/⊆/g; s/\\e/\\/g'
transcript man/ws2s.1 "$unroff"
transcript man/verdict.1 "$unroff"
[ "$transcripts" -ge 17 ] || { echo "only $transcripts commands are shown"; failed=1; }

# ---- The C programs and the refusals

program() { # NUMBER: the README's so many-th C program
    awk -v number="$1" '/^```c$/ { inside = ++met == number; next } /^```$/ { inside = 0 } inside' README.md
}
program 1 | cmp - examples/host.c || failed=1
program 2 | cmp - examples/import.c || failed=1
manual() { # PAGE: what its example prints
    sed -n '/^\.SH EXAMPLES/,/^\.fi/p' "man/$1.3" | sed -n "/^    /{$unroff; s/^    //; p;}" >"$room/manual.c"
    ${CC:-cc} -std=c99 -pedantic -Wall -Wextra -Werror -Iinclude "$room/manual.c" "$archive" -o "$room/manual"
    "$room/manual"
}
differs 'ws2s(3), example' 'label 1
  label 2' "$(manual ws2s)"
for page in ws2s_clash ws2s_join; do
    differs "$page(3), example" "$(sed -n '/^prints "/{s/^prints "//; s/" and "/\n/g; s/"\.$//; p;}' "man/$page.3")" "$(manual "$page")"
done

cat >"$room/refusals.c" <<'END'
#include <stdio.h>
#include <stdlib.h>
#include <ws2s.h>
int main(int argc, char **argv)
{
    for (int i = 1; i < argc; i++)
        printf("%d|%s|%s|%s\n", i, argv[i], ws2s_refusal_text((uint64_t)i), ws2s_refusal_help((uint64_t)i));
    return 0;
}
END
${CC:-cc} -std=c99 -Iinclude "$room/refusals.c" -o "$room/refusals"
# shellcheck disable=SC2046 # a word for each name, in the order of their numbers
"$room/refusals" $(sed -n 's/^ *WS2S_REFUSED_\([A-Z_]*\) = \([0-9]*\).*/\2 \1/p' include/ws2s.h | sort -n | cut -d' ' -f2) >"$room/refused"
[ "$(wc -l <"$room/refused")" -eq 30 ] || { echo 'the header does not have 30 refusals'; failed=1; }
# the places stand in brackets after the header's words for a refusal, at times on the next line
awk '/^ *WS2S_REFUSED_[A-Z_]* = / { name = $1; sub(/^WS2S_REFUSED_/, "", name); number = $3 + 0 }
    /^};/ { name = "" }
    name && match($0, /\[[^]]*\]/) { print number "|" name "|" substr($0, RSTART + 1, RLENGTH - 2) }' include/ws2s.h >"$room/places"
[ "$(wc -l <"$room/places")" -eq 17 ] || { echo 'the header does not have 17 places'; failed=1; }
awk -F'|' 'NR == FNR { place[$1] = $3; next } { print $0 "|" place[$1] }' "$room/places" "$room/refused" >"$room/rows"
differs 'README, refusals' "$(sed -n 's/^| \([0-9]*\) | `\([A-Z_]*\)` | \(.*\) | \(.*\) | *\(.*\)|$/\1|\2|\3|\4|\5/p' README.md | sed 's/ $//')" "$(cat "$room/rows")"
table() { # SECTION: the numbered rows of a table of ws2s(3)
    awk -v section=".SH $1" '/^\.SH / { inside = $0 == section } inside' man/ws2s.3 |
        sed -n 's/^ *\([0-9][0-9]*\)  \([A-Z][A-Z_]*\)  *\([a-z0-9].*\)$/\1|\2|\3/p'
}
differs 'ws2s(3), refusals' "$(table REFUSALS)" "$(cut -d'|' -f1-3 "$room/refused")"
differs 'ws2s(3), places' "$(table PLACES)" "$(cat "$room/places")"
structures() { # FILE...: the results' fields, with their names
    sed 's/^\.B "*//; s/"$//' "$@" | awk '/^typedef struct \{/ { fields = ""; next } /^ *uint64_t [][a-z0-9, ]*;$/ { sub(/^ */, ""); fields = $0; next }
        /^\} ws2s_[a-z_]*;/ { if (fields) print $2, fields; fields = "" }' | sort
}
structures include/ws2s.h >"$room/structures"
[ "$(wc -l <"$room/structures")" -eq 7 ] || { echo 'the header does not have 7 results'; failed=1; }
pages=
for name in check_rule check_tree judge decide clash import text_fault; do pages="$pages man/ws2s_$name.3"; done
# shellcheck disable=SC2086 # a word for each page
differs 'manual pages, structures' "$(structures $pages)" "$(cat "$room/structures")"
differs 'ws2s_join(3), structure' "$(structures man/ws2s_join.3)" "$(structures man/ws2s_import.3)"
exported=$(sed -n 's/^pub extern "C" fn \([a-z0-9_]*\)(.*/\1/p' crates/ws2s_c/src/lib.rt)
for name in $exported; do
    in_header=$(tr -d ' \n' <include/ws2s.h | grep -o "ws2s_[a-z_]*$name([a-z0-9_*,]*);" | head -n 1)
    in_page=$(sed -n '/^\.SH SYNOPSIS/,/^\.fi/{s/^\.BI //p;}' "man/$name.3" | tr -d '" \n')
    differs "$name(3), synopsis" "$in_page" "$in_header"
    grep -q "^| \`$name\` |" README.md || { echo "the README has no $name"; failed=1; }
done
[ "$(printf '%s\n' "$exported" | wc -l)" -eq 8 ] || { echo 'the library does not have 8 functions'; failed=1; }

# ---- The subcommands

"$command" --help | sed -n 's/^\(usage:\|      \) \(ws2s .*\)/\2/p' >"$room/usage"
differs 'ws2s(1), synopsis' "$(sed -n '/^\.SH SYNOPSIS/,/^\.fi/{s/\\f[BIP]//g; s/\\-/-/g; /^ws2s /p;}' man/ws2s.1)" "$(cat "$room/usage")"
for name in $(sed -n 's/^ws2s \([a-z]*\) .*/\1/p' "$room/usage"); do
    grep -q "^| \`$name .*\` |" README.md || { echo "the README has no ws2s $name"; failed=1; }
    grep -q "^\.B $name$" man/ws2s.1 || { echo "ws2s(1) does not describe $name"; failed=1; }
done

# ---- The samples: `file` in the first column, records in the last but one, `verdict` in the last

rows=0 printed=0
for rule in samples/*.rul; do
    row=$(grep "^| \`$(basename "$rule")\` |" samples/README.md) || { echo "$rule: no row in samples/README.md"; failed=1; continue; }
    differs "$rule" "$(printf '%s\n' "$row" | sed 's/.*| `\([^`]*\)` |$/\1/')" "$("$verdict" <"$rule")"
    rows=$((rows + 1))
    case $row in *', cut |'* | *' to 16: '*) continue ;; esac
    differs "$rule" "$(printf '%s\n' "$row" | sed 's/ | `[^`]*` |$//; s/.* | //')" "$("$command" print "$rule" 2>/dev/null | sed ':a; N; $!ba; s/\n/; /g')"
    printed=$((printed + 1))
done
[ "$rows" -eq "$(grep -c '^| `.*\.rul` |' samples/README.md)" ] || { echo 'samples/README.md has rows without a sample'; failed=1; }
[ "$printed" -ge $((rows - 2)) ] || { echo 'records of samples were not compared'; failed=1; }

# ---- The picture, the targets, the proofs

"$command" decide --svg samples/crash_report.rul report seat belt airbag | cmp - docs/crash_report.svg || failed=1
make --no-print-directory help >"$room/help"
for target in $(sed -n 's/^\.PHONY: //p' Makefile); do
    [ "$target" != FORCE ] || continue
    grep -q "make $target\b" "$room/help" || [ "$target" = help ] || { echo "make help has no $target"; failed=1; }
    grep -q "\`make $target\`" README.md || { echo "the README has no make $target"; failed=1; }
done
made_of=$(awk '
    function visit(crate,    i, part) {
        if (!(crate in below) || met[crate]++)
            return
        count++
        for (i = split(below[crate], part); i; i--)
            visit(part[i])
    }
    { name = $1; sub(/:$/, "", name); $1 = ""; below[name] = $0 }
    END { visit("verdict"); print count }' crates.txt)
differs 'README, crates of make run' "$(sed -n 's/.*a line for each of the \([0-9]*\) crates.*/\1/p' README.md)" "$made_of"
if grep -n 'proofs\.' crates/*/specs/*.antt crates/*/src/*.rt | grep -v ':\(ghost \)*use Rattle\.std\.'; then
    echo 'a contract or definition cites a file under proofs/'
    failed=1
fi
[ "$failed" -eq 0 ] && echo "documents agree with the programs ($rows samples, $transcripts commands)"
exit "$failed"
