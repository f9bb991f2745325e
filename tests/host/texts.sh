#!/bin/sh
# Holds the samples that are texts, and the page about texts, to the command:
#
#     texts.sh COMMAND
#
# from the top of the repository.
# - Every sample strip has a text beside it, and every text a row in samples/README.md
#   with the first line of its answer, and how that compares with the strip's. A text
#   that is accepted imports to a strip that the check accepts and that is decided
#   alike.
# - Every command that docs/TEXT.md shows after a prompt is run, and must write what
#   is shown after it. The page's table of texts and brackets has on each row two
#   texts with one strip, its table of records the records that print writes, and its
#   table of refusals texts that are refused so, at the token marked there.
# It prints what differs, and ends with status 1 if anything does.
set -eu
command=$PWD/$1
room=$(mktemp -d)
trap 'rm -rf "$room"' EXIT
failed=0
differs() { # WHAT EXPECTED GOT
    [ "$2" = "$3" ] && return
    printf '%s: documented\n%s\n%s: happened\n%s\n' "$1" "$2" "$1" "$3"
    failed=1
}

# ---- The samples

answer() { # FILE [NAME...]: the first line of what is decided; of a refusal the number and where
    "$command" decide "$@" 2>&1 | sed -n '1{s/^ws2s: [^:]*: \(refused [^:]*\):.*/\1/; p;}'
}
outline() { # FILE [NAME...]: the places that are shown
    "$command" decide "$@" 2>/dev/null | sed 1d
}
status() { # FILE
    "$command" decide "$1" >/dev/null 2>&1 && echo 0 || echo $?
}
rows=0
for rule in samples/*.rul; do
    text=${rule%.rul}.mona
    [ -f "$text" ] || { echo "$rule has no text beside it"; failed=1; continue; }
    row=$(grep "^| \`$(basename "$text")\` |" samples/README.md) || { echo "$text: no row in samples/README.md"; failed=1; continue; }
    rows=$((rows + 1))
    differs "$text" "$(printf '%s\n' "$row" | sed 's/ | [^|]* |$//; s/.*| `\([^`]*\)`$/\1/')" "$(answer "$text")"
    # shellcheck disable=SC2046 # a word for each name
    case $row in
    *'| the same tree, bit for bit |')
        differs "$text, tree" "$("$command" decide --hex "$rule")" "$("$command" decide --hex "$text")"
        differs "$text, status" 0 "$(status "$text")" ;;
    *'| the same tree, with another n |')
        differs "$text, tree" "$(outline "$rule" $(sed -n 's/^var[12] //; T; s/[;,]//g; p' "$text"))" "$(outline "$text")"
        differs "$text, status" 0 "$(status "$text")"
        [ "$("$command" decide --hex "$rule")" != "$("$command" decide --hex "$text")" ] || { echo "$text: the trees are the same bit for bit"; failed=1; } ;;
    *'| none, too |') differs "$text and its strip, status" '1 1' "$(status "$rule") $(status "$text")" ;;
    *'| refused, too |') differs "$text and its strip, status" '3 3' "$(status "$rule") $(status "$text")" ;;
    *) echo "$text: its row does not say how it compares with the strip"; failed=1 ;;
    esac
    if "$command" import "$text" -o "$room/strip" 2>/dev/null; then
        "$command" check rule "$room/strip" >/dev/null || failed=1
        differs "$text, imported" "$(answer "$text" | sed 's/^refused 14.*/refused 14/')" "$(answer "$room/strip" | sed 's/^refused 14.*/refused 14/')"
    fi
    rm -f "$room/strip"
done
[ "$rows" -ge 20 ] || { echo "only $rows texts are compared"; failed=1; }
differs 'samples/README.md, rows of texts' "$(grep -c '^| `[a-z_]*\.mona` |' samples/README.md)" "$rows"
differs 'texts in samples' "$(ls samples/*.mona | wc -l)" "$rows"

# ---- What docs/TEXT.md shows after a prompt

mkdir "$room/bin" "$room/tree"
ln -s "$command" "$room/bin/ws2s"
ln -s "$PWD/samples" "$room/tree/samples"
awk -v room="$room" '
    !/^    / { inside = 0; next }
    { sub(/^    /, "") }
    /^\$ / { inside = 1; print substr($0, 3) >(room "/shown.sh"); print "+ " substr($0, 3) >(room "/shown"); next }
    /^> / && inside == 1 { print substr($0, 3) >(room "/shown.sh"); print >(room "/shown"); next }
    inside { inside = 2; print >(room "/shown") }' docs/TEXT.md
# each command is written before it runs; a line with > goes on with it
awk '{ q = $0; gsub(/'\''/, "'\''\\'\'''\''", q) }
    held { printf "printf '\''> %%s\\n'\'' '\''%s'\''\n", q; body = body "\n" $0; if ($0 == "END") { print body; held = 0 } next }
    { printf "printf '\''+ %%s\\n'\'' '\''%s'\''\n", q }
    /<<.*END/ { held = 1; body = $0; next }
    { print }' "$room/shown.sh" >"$room/run.sh"
(cd "$room/tree" && PATH="$room/bin:$PATH" sh "$room/run.sh" >"$room/happened" 2>&1 </dev/null) || true
differs docs/TEXT.md "$(cat "$room/shown")" "$(cat "$room/happened")"
commands=$(grep -c '^+ ' "$room/shown")
[ "$commands" -ge 15 ] || { echo "only $commands commands are shown"; failed=1; }

# ---- Its tables: a text stands between backticks in the first column; `\|` is | there

cells() { # HEADING COLUMN: the texts in a column of the table under a heading
    awk -v heading="## $1" '/^#/ { inside = $0 == heading } inside && /^\| `/' docs/TEXT.md |
        sed 's/\\|/\x01/g' | cut -d'|' -f$(($2 + 1)) | sed 's/\x01/|/g; s/^ *`\([^`]*\)`.*/\1/; s/^ *//; s/ *$//'
}
strip() { # FORMULA: its strip in hexadecimal digits
    printf 'ws2s; var2 A, B, C; var1 x, y; %s;' "$1" >"$room/text"
    "$command" import "$room/text" 2>/dev/null | od -An -v -tx1 | tr -d ' \n'
}
bindings=0
cells 'Which operator binds first' 1 >"$room/first"
cells 'Which operator binds first' 2 >"$room/second"
while IFS= read -r typed && IFS= read -r bracketed <&3; do
    [ -n "$(strip "$typed")" ] || { echo "docs/TEXT.md: $typed is refused"; failed=1; }
    [ "$typed" != "$bracketed" ] || { echo "docs/TEXT.md: $typed has no brackets"; failed=1; }
    differs "docs/TEXT.md, $typed and $bracketed" "$(strip "$typed")" "$(strip "$bracketed")"
    bindings=$((bindings + 1))
done <"$room/first" 3<"$room/second"
[ "$bindings" -ge 12 ] || { echo "only $bindings texts with brackets are compared"; failed=1; }

constructs=0
for column in 1 2 3; do cells 'What a construct costs' $column >"$room/column$column"; done
while IFS= read -r formula && IFS= read -r own <&3 && IFS= read -r all <&4; do
    printf 'ws2s; var2 A, B; var1 x, y; %s;' "$formula" >"$room/text"
    "$command" print "$room/text" | sed 1d | head -n -4 >"$room/records" # without those of the two free places
    differs "docs/TEXT.md, records of $formula" "$all" "$(sed ':a; N; $!ba; s/\n/; /g' "$room/records")"
    atoms=$(printf '%s\n' "$formula" | grep -o ' sub \| in \| = ' | wc -l)
    case $formula in *[\&\|~:\>]*) ;; *) atoms=0 ;; esac # an atom has itself alone
    differs "docs/TEXT.md, number of records of $formula" "$own" "$(($(wc -l <"$room/records") - atoms))"
    constructs=$((constructs + 1))
done <"$room/column1" 3<"$room/column2" 4<"$room/column3"
[ "$constructs" -ge 15 ] || { echo "only $constructs constructs are compared"; failed=1; }

refusals=0
for column in 1 2 3; do cells 'What is refused, and where' $column >"$room/column$column"; done
while IFS= read -r text && IFS= read -r number <&3 && IFS= read -r token <&4; do
    printf '%s' "$text" >"$room/text"
    "$command" import "$room/text" >"$room/out" 2>"$room/said" || true
    differs "docs/TEXT.md, $text" "$number" "$(sed -n '1s/.*: refused \([0-9]*\)[ :].*/\1/p' "$room/said")"
    # what stands from the mark on, and a sign of the mark for each character of the token
    marked=$(LC_ALL=C awk 'NR == 2 { line = $0 } NR == 3 { start = index($0, "^"); print substr(line, start) }' "$room/said")
    signs=$(sed -n '3s/ //gp' "$room/said" | tr -d '\n' | wc -c)
    case $token in
    'the end') differs "docs/TEXT.md, end of $text" '' "$marked" ;;
    *)
        case $marked in "$token"*) ;; *) differs "docs/TEXT.md, token of $text" "$token" "$marked" ;; esac
        differs "docs/TEXT.md, mark of $text" "$(printf %s "$token" | LC_ALL=C tr -d '\200-\277' | wc -c)" "$signs" ;;
    esac
    refusals=$((refusals + 1))
done <"$room/column1" 3<"$room/column2" 4<"$room/column3"
[ "$refusals" -ge 17 ] || { echo "only $refusals refusals are compared"; failed=1; }

[ "$failed" -eq 0 ] && echo "texts agree with the command ($rows samples, $commands commands, $bindings bindings, $constructs constructs, $refusals refusals)"
exit "$failed"
