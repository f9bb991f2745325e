#!/bin/sh
# Runs the command as a person would: command.sh COMMAND, from the top of the
# repository. Every subcommand, every form and every exit status; files that are
# missing, folders, endless, closed; output that is closed, full or read by nobody;
# texts of all kinds, and where they are refused.
# What is written to standard output and standard error is compared, byte for byte.
# It prints what fails and a count, and ends with status 1 if anything did.
set -u
command=$1
case $command in /*) ;; *) command=$PWD/$command ;; esac
room=$(mktemp -d) || exit 2
trap 'rm -rf "$room"' EXIT
trap 'exit 2' HUP INT TERM
passed=0 failed=0

strip() { # FILE OCTAL...: a file of these bytes
    file=$room/$1
    shift
    for byte; do printf "\\$byte"; done >"$file"
}

rule() { # FILE VARIABLES RECORD...: a rule strip; a record is its op and fields
    file=$room/$1 variables=$2
    shift 2
    octal=$(printf '%s\n' "$@" | awk -v n="$variables" '
        function put(count, value,    text) { for (; count > 0; count--) { text = value % 2 text; value = int(value / 2) } bits = bits text }
        { op[NR] = $1; first[NR] = $2; second[NR] = $3 }
        END {
            put(4, 1); put(4, n); put(8, NR)
            for (i = 1; i <= NR; i++) { put(4, op[i]); put(7, first[i]); put(7, second[i]) }
            while (length(bits) % 8) bits = bits "0"
            for (i = 1; i <= length(bits); i += 8) {
                value = 0
                for (k = 0; k < 8; k++) value = 2 * value + substr(bits, i + k, 1)
                printf "\\%03o", value
            }
        }')
    printf "$octal" >"$file"
}

verdict() { # RIGHT WHAT
    if [ "$1" = yes ]; then
        passed=$((passed + 1))
        return
    fi
    failed=$((failed + 1))
    echo "$2"
    echo "  status $status, standard output and error:"
    sed 's/^/  | /' "$room/out" "$room/err"
}

# The command's status, standard output and standard error must be these.
expect() { # STATUS OUT ERR WORDS...
    wanted=$1 out=$2 err=$3
    shift 3
    "$command" "$@" >"$room/out" 2>"$room/err" <"${input:-/dev/null}"
    status=$?
    right=yes
    [ "$status" -eq "$wanted" ] || right=no
    [ "$(cat "$room/out")" = "$out" ] || right=no
    [ "$(cat "$room/err")" = "$err" ] || right=no
    verdict $right "ws2s $*: expected status $wanted and
$out
$err"
}

# Only the status and a part of standard error; nothing on standard output.
refuses() { # STATUS PART WORDS...
    wanted=$1 part=$2
    shift 2
    "$command" "$@" >"$room/out" 2>"$room/err" <"${input:-/dev/null}"
    status=$?
    right=yes
    [ "$status" -eq "$wanted" ] && [ ! -s "$room/out" ] && grep -qF -- "$part" "$room/err" || right=no
    [ "$(wc -l <"$room/err")" -eq 1 ] || right=no
    verdict $right "ws2s $*: expected status $wanted, one line with: $part"
}

cd "$(dirname "$0")/../.." || exit 2
samples=samples

# ---- decide
expect 0 'shown: 2 places, 4 states
seat
  belt' '' decide $samples/first_inside.rul belt seat
expect 0 'shown: 1 place, 3 states
X0' '' decide $samples/one_part.rul
expect 0 'shown: 0 places, 1 state
(the empty tree)' '' decide $samples/hidden_part.rul
expect 0 'shown: 2 places, 4 states
(no kind)
  X0' '' decide --outline $samples/inside_something.rul
expect 0 'shown: 4 places, 6 states
report
  seat
    belt
  airbag' '' decide $samples/crash_report.rul report seat belt airbag
expect 0 'shown: 1 place, 3 states
this + that' '' decide $samples/same_kinds.rul this that
expect 0 12B800 '' decide --hex $samples/first_inside.rul
expect 0 1100 '' decide --hex $samples/hidden_part.rul
expect 0 12B800 '' decide $samples/first_inside.rul belt --hex seat
expect 0 12B800 '' decide --hex -c 4 -p 2 -- $samples/first_inside.rul
expect 0 12B800 '' decide --hex -c4 -p2 $samples/first_inside.rul
none='none: no finite sets satisfy the rule' asks='ws2s: to see which requirements clash: ws2s clash'
expect 1 "$none" "$asks samples/kinds_in_a_circle.rul" decide $samples/kinds_in_a_circle.rul
expect 1 '' "$none
$asks samples/kinds_in_a_circle.rul" decide --svg $samples/kinds_in_a_circle.rul
expect 2 'larger: finite sets satisfy the rule, but all of them take more than 1 place' '' decide -p 1 $samples/first_inside.rul
expect 2 '' 'larger: finite sets satisfy the rule, but all of them take more than 1 place' decide -p 1 --hex $samples/first_inside.rul
expect 3 '' 'ws2s: samples/cut_short.rul: refused 5 at bit 32: the rule'\''s length does not fit its records (1 record takes 5 bytes, and there are 4); it was cut, or has bytes left over' \
    decide $samples/cut_short.rul
expect 3 '' 'ws2s: samples/full_report.rul: refused 14: a record needs more than c states (record 16: exists other: 15); raise c, at most to 64, or simplify that record' \
    decide -c 15 $samples/full_report.rul part other
expect 3 '' 'ws2s: samples/first_inside.rul: refused 11: a ceiling is out of range; c from 1 to 64, P at most 255' decide -c 65 $samples/first_inside.rul
refuses 3 'refused 11' decide -c 0 $samples/first_inside.rul
refuses 3 'refused 11' decide -p 256 $samples/first_inside.rul
refuses 3 'refused 11' decide -p 99999999999999999999999 $samples/first_inside.rul
expect 0 'digraph tree {
    node [shape=box, style=rounded, fontname="sans-serif"];
    n0 [label="a \"quoted\" \\ kind"];
    n1 [label="b"];
    n0 -> n1 [style=dashed];
    { rank=same; n0; n1; }
    n2 [label="c"];
    n1 -> n2 [style=dashed];
    { rank=same; n1; n2; }
}' '' decide --dot $samples/in_order.rul 'a "quoted" \ kind' b c
expect 0 'digraph tree {
    node [shape=box, style=rounded, fontname="sans-serif"];
    n0 [label="X1"];
    n1 [label="X0"];
    n0 -> n1;
}' '' decide --dot $samples/first_inside.rul
expect 0 'digraph tree {
    node [shape=box, style=rounded, fontname="sans-serif"];
    n0 [shape=plaintext, label="(the empty tree)"];
}' '' decide --dot $samples/hidden_part.rul
expect 0 '<svg xmlns="http://www.w3.org/2000/svg" width="84" height="124" font-family="sans-serif" font-size="15" text-anchor="middle">
<title>a tree: solid to the first part inside, dashed to the next part beside</title>
<rect width="100%" height="100%" fill="white"/>
<g stroke="black" fill="white">
<rect x="12" y="12" width="60" height="32" rx="6"/>
<line x1="42" y1="44" x2="42" y2="80"/>
<rect x="12" y="80" width="60" height="32" rx="6"/>
</g>
<text x="42" y="33">&lt;é&gt;&amp;</text>
<text x="42" y="101">b</text>
</svg>' '' decide --svg $samples/first_inside.rul b '<é>&'
expect 0 '<svg xmlns="http://www.w3.org/2000/svg" width="168" height="56" font-family="sans-serif" font-size="15" text-anchor="middle">
<title>a tree: solid to the first part inside, dashed to the next part beside</title>
<rect width="100%" height="100%" fill="white"/>
<g stroke="black" fill="white">
</g>
<text x="84" y="33">(the empty tree)</text>
</svg>' '' decide --svg $samples/hidden_part.rul

# ---- the strip itself, judged, checked and shown again
"$command" decide --strip $samples/crash_report.rul >"$room/tree"
"$command" decide --strip $samples/hidden_part.rul >"$room/empty"
expect 0 'yes: the tree satisfies the rule' '' judge $samples/crash_report.rul "$room/tree"
expect 0 'accepted: 4 variables, 4 places' '' check tree "$room/tree"
expect 0 'accepted: 1 variable, 0 places' '' check tree "$room/empty"
expect 0 "$("$command" decide --hex $samples/crash_report.rul)" '' tree --hex "$room/tree"
expect 0 "$("$command" decide --svg $samples/crash_report.rul a b c d)" '' tree "$room/tree" --svg a b c d
expect 0 "$("$command" decide --dot $samples/crash_report.rul)" '' tree "$room/tree" --dot
expect 0 'X0
  b
    X2
  X3' '' tree "$room/tree" X0 b
expect 0 '(the empty tree)' '' tree "$room/empty"
expect 1 'no: the tree does not satisfy the rule' '' judge $samples/one_part.rul "$room/empty"
expect 3 '' "ws2s: $room/empty: refused 22: tree and rule have different numbers of variables; give the tree the rule's number" \
    judge $samples/crash_report.rul "$room/empty"
refuses 3 'samples/one_part.rul: refused 14: a record needs more than c states (record 0: Sing(X0))' judge -c 2 $samples/one_part.rul "$room/empty"
refuses 3 'samples/cut_short.rul: refused 5 at bit 32: ' judge $samples/cut_short.rul "$room/empty"
strip bare 022 200
expect 3 '' "ws2s: $room/bare: refused 19 at bit 8: a node with label 0 has no branches (byte 1, bit 0, counted from 0 and from the left); leave such nodes out" tree "$room/bare"
refuses 3 "$room/bare: refused 19 at bit 8: " judge $samples/first_inside.rul "$room/bare"
refuses 3 "$room/bare: refused 19 at bit 8: " check tree "$room/bare"
strip bare 022 260 000
refuses 3 'refused 19 at bit 11: a node with label 0 has no branches (byte 1, bit 3, counted' check tree "$room/bare"
strip nothing
refuses 3 "$room/nothing: refused 15 at bit 0: the tree has no bytes; was the whole file read?" tree "$room/nothing"
refuses 3 'standard input: refused 15 at bit 0: ' check tree -
refuses 3 'standard input: refused 1 at bit 0: the rule has fewer than two bytes (there is none); was the whole file read?' check rule -
strip bad 021
refuses 3 'refused 1 at bit 8: the rule has fewer than two bytes (there is 1); was the whole file read?' check rule "$room/bad"
refuses 3 "refused 18 at bit 8: the tree's bits end early (after 1 byte); the strip was cut" check tree "$room/bad"
strip bad 042 270 000
refuses 3 "refused 16 at bit 0: the tree's version is not 1 (byte 0, bit 0, counted from 0 and from the left: it says 2); write" check tree "$room/bad"
strip bad 031 270 000
refuses 3 'refused 17 at bit 4: the tree has no variable or more than 8 (byte 0, bit 4, counted from 0 and from the left: it says 9); use' tree "$room/bad"
strip bad 022 270
refuses 3 "refused 18 at bit 16: the tree's bits end early (after 2 bytes); the strip was cut" tree "$room/bad"
strip bad 022 270 002
refuses 3 'refused 21 at bit 22: a padding bit of the tree is set, or bytes are left over (byte 2, bit 6, counted from 0 and from the left); cut' tree "$room/bad"
strip bad 022 270 002 000
refuses 3 'refused 21 at bit 22: a padding bit of the tree is set, or bytes are left over (byte 2, bit 6, counted from 0 and from the left); cut' check tree "$room/bad"
strip bad 022 270 000 000
refuses 3 'refused 21 at bit 24: a padding bit of the tree is set, or bytes are left over (byte 3, counted from 0, is the first left over); cut the strip at its end' \
    judge $samples/first_inside.rul "$room/bad"
{ printf '\021' && head -c 100 /dev/zero | tr '\000' '\377'; } >"$room/bad"
refuses 3 'refused 20 at bit 518: the tree has more than 255 positions (byte 64, bit 6, counted from 0 and from the left); judge' check tree "$room/bad"
{ cat "$room/bad" && cat /dev/zero; } 2>/dev/null | "$command" check tree - >"$room/out" 2>"$room/err"
status=$?
grep -qF 'standard input: refused 20 at bit 518: ' "$room/err" && [ $status -eq 3 ] && right=yes || right=no
verdict $right 'check of an endless tree with too many nodes'
{ printf '\022\270' && cat /dev/zero; } 2>/dev/null | "$command" tree - >"$room/out" 2>"$room/err"
status=$?
grep -qF 'standard input: refused 21 at bit 24: ' "$room/err" && [ $status -eq 3 ] && right=yes || right=no
verdict $right 'an endless tree'

# ---- check and print
expect 0 'accepted: 3 variables, 11 records' '' check rule $samples/belt_in_every_seat.rul
expect 0 'accepted: 1 variable, 1 record' '' check rule $samples/one_part.rul
expect 0 'n=3
0: part = seat 1
1: part ⊆ belt
2: not 1
3: 0 and 2
4: exists part: 3
5: seat ⊆ part
6: 4 and 5
7: exists seat: 6
8: not 7
9: Sing(part)
10: 8 and 9' '' print $samples/belt_in_every_seat.rul part belt seat
rule all 8 '0 0 7' '1 1 0' '2 2 3' '3 4 5' '4 6 0' '5 4 0' '6 0 1' '7 6 5' '8 7 7'
expect 0 'n=8
0: X0 ⊆ X7
1: Sing(X1)
2: X2 = X3 1
3: X4 = X5 2
4: X6 = ε
5: not 4
6: 0 or 1
7: 6 and 5
8: exists X7: 7' '' print "$room/all"
rule bad 2 '0 0 1' '5 2 0' '9 96 2' '1 9 5' '4 0 3' '5 0 7'
expect 3 'n=2
0: X0 ⊆ a
1: not 2   <- refused 9 at bit 38 (first field)
2: op 9, fields 96 and 2
3: Sing(X9), unused field 5
4: X0 = ε, unused field 3
5: not 0, unused field 7' "ws2s: $room/bad: refused 9 at bit 38: a record names itself or a later record (record 1, first field: not 2); put the record that it uses before it" \
    print "$room/bad" X0 a
rule bad 1 '0 0 0' '0 0 0' '2 0 1'
expect 3 'n=1
0: X0 ⊆ X0
1: X0 ⊆ X0
2: X0 = X1 1   <- refused 8 at bit 63 (second field)' "ws2s: $room/bad: refused 8 at bit 63: a record names a variable that there is not (record 2, second field: X0 = X1 1); correct the record, or the number of variables" \
    print "$room/bad"
refuses 3 'refused 8 at bit 63: a record names a variable that there is not (record 2, second field: X0 = X1 1); correct' decide "$room/bad"
refuses 3 'refused 8 at bit 63: a record names a variable that there is not (record 2, second field: X0 = X1 1); correct' judge "$room/bad" "$room/bare"
rule bad 1 '0 0 0' '2 1 1'
refuses 3 'refused 8 at bit 38: a record names a variable that there is not (record 1, first field: X1 = X1 1); correct' check rule "$room/bad"
rule bad 1 '0 0 0' '7 0 1'
refuses 3 'refused 9 at bit 45: a record names itself or a later record (record 1, second field: 0 and 1); put' check rule "$room/bad"
rule bad 1 '1 0 1'
refuses 3 'refused 10 at bit 27: an unused field is not 0 (record 0, second field: Sing(X0), unused field 1); set it to 0' check rule "$room/bad"
rule bad 1 '0 0 0' '10 1 0'
refuses 3 'refused 7 at bit 34: a record has an unknown op (record 1: op 10, fields 1 and 0); the file is' check rule "$room/bad"
expect 3 'n=1
0: X0 ⊆ X0
1: op 10, fields 1 and 0   <- refused 7 at bit 34 (op)' "ws2s: $room/bad: refused 7 at bit 34: a record has an unknown op (record 1: op 10, fields 1 and 0); the file is damaged or too new" \
    print "$room/bad"
strip bad 042 001 040 000 100
refuses 3 "refused 2 at bit 0: the rule's version is not 1 (byte 0, bit 0, counted from 0 and from the left: it says 2); write" print "$room/bad"
strip bad 031 001 040 000 100
refuses 3 'refused 3 at bit 4: the rule has no variable or more than 8 (byte 0, bit 4, counted from 0 and from the left: it says 9); use' print "$room/bad"
strip bad 022 201 040 000 100
refuses 3 'refused 4 at bit 8: the rule has no record or more than 128 (byte 1, bit 0, counted from 0 and from the left: it says 129); split it' print "$room/bad"
expect 3 'n=2' "ws2s: samples/cut_short.rul: refused 5 at bit 32: the rule's length does not fit its records (1 record takes 5 bytes, and there are 4); it was cut, or has bytes left over" \
    print $samples/cut_short.rul
input=/dev/zero
refuses 3 "standard input: refused 2 at bit 0: the rule's version is not 1 (byte 0, bit 0, counted from 0 and from the left: it says 0); write" decide -
refuses 3 'standard input: refused 16 at bit 0: ' tree -
input=
{ printf '\022\001\040\000\100' && cat /dev/zero; } 2>/dev/null | "$command" print - >"$room/out" 2>"$room/err"
status=$?
grep -qF 'refused 5 at bit 2328 or later: the rule'\''s length does not fit its records (1 record takes 5 bytes, and there are more than 290)' "$room/err" && [ $status -eq 3 ] &&
    [ "$(cat "$room/out")" = 'n=2
0: X0 = X1 1' ] && right=yes || right=no
verdict $right 'print of an endless strip'
{ printf '\022\001\040\000\100' && head -c 285 /dev/zero; } >"$room/bad"
refuses 3 "refused 5 at bit 2320: the rule's length does not fit its records (1 record takes 5 bytes, and there are 290); it" check rule "$room/bad"
printf '\000' >>"$room/bad"
refuses 3 "refused 5 at bit 2328 or later: the rule's length does not fit its records (1 record takes 5 bytes, and there are more than 290); it" check rule "$room/bad"
strip bad 022 001 040 000 101
expect 3 'n=2
0: X0 = X1 1' "ws2s: $room/bad: refused 6 at bit 39: a padding bit of the rule is set (byte 4, bit 7, counted from 0 and from the left); the file is damaged" print "$room/bad"
strip bad 022 001 040 000 124
refuses 3 'refused 6 at bit 35: a padding bit of the rule is set (byte 4, bit 3, counted from 0 and from the left); the file is damaged' check rule "$room/bad"

# the records come first where both outputs are one
"$command" print $samples/out_of_order.rul >"$room/out" 2>&1
status=$?
: >"$room/err"
[ $status -eq 3 ] && [ "$(sed -n '1p; $p' "$room/out" | cut -c1-20)" = 'n=2
ws2s: samples/out_of' ] && right=yes || right=no
verdict $right 'print to one file'

# ---- standard input
input=$samples/first_inside.rul
expect 0 12B800 '' decide --hex -
expect 0 'n=2
0: X0 = X1 1' '' print -
printf '\022\270' >"$room/other" && printf '\022\270\000' >"$room/fits"
expect 0 'yes: the tree satisfies the rule' '' judge - "$room/fits"
refuses 3 "$room/other: refused 18 at bit 16: the tree's bits end early (after 2 bytes); the strip was cut" judge - "$room/other"
input=

# ---- texts: import
text() { # FILE FORMAT: a file as printf writes it
    # shellcheck disable=SC2059
    printf "$2" >"$room/$1"
}
grammar='the text leaves the grammar, or nests deeper than 32' allowed='put there what the grammar allows, or nest less'
naming='a name is not declared, declared twice, or of the wrong order' declare='declare it once, a place with var1 and a set with var2'

same() { # FILE FILE WHAT: they have the same bytes
    right=no
    [ "$status" -eq 0 ] && cmp -s "$1" "$2" && [ ! -s "$room/err" ] && right=yes
    verdict $right "$3"
}
text inside.mona 'ws2s; var1 belt, seat; belt = seat.0;'
rule inside 2 '2 0 1' '1 0 0' '7 1 0' '1 1 0' '7 3 2'
"$command" import "$room/inside.mona" >"$room/out" 2>"$room/err"
status=$?
same "$room/out" "$room/inside" 'import to standard output'
"$command" import - -o - <"$room/inside.mona" >"$room/out" 2>"$room/err"
status=$?
same "$room/out" "$room/inside" 'import of standard input to standard output'
expect 0 '' '' import "$room/inside.mona" -o "$room/made"
same "$room/made" "$room/inside" 'import to a new file'
printf 'a longer file that was there before, of more bytes than the strip' >"$room/made"
expect 0 '' '' import -o "$room/made" "$room/inside.mona"
same "$room/made" "$room/inside" 'import over a file'
expect 0 '' '' import -o"$room/made" -- "$room/inside.mona"
same "$room/made" "$room/inside" 'import with the option and its file in one word'

# every construct, in the records' order
text all.mona 'ws2s; var1 a; var2 A, B; var1 b;
(~A sub B | a = b & a = b.0 => a = b.1 => a = root)
<=> (ex1 x: x in A) & (ex2 X: X sub A) <=> (all1 y: y in B) | (all2 Y: Y sub B);'
expect 0 'n=5
0: A ⊆ B
1: not 0
2: a ⊆ b
3: a = b 1
4: 2 and 3
5: 1 or 4
6: not 5
7: a = b 2
8: not 7
9: a = ε
10: 8 or 9
11: 6 or 10
12: x ⊆ A
13: Sing(x)
14: 13 and 12
15: exists x: 14
16: X ⊆ A
17: exists X: 16
18: 15 and 17
19: not 11
20: not 18
21: 19 or 18
22: 20 or 11
23: 21 and 22
24: y ⊆ B
25: not 24
26: Sing(y)
27: 26 and 25
28: exists y: 27
29: not 28
30: Y ⊆ B
31: not 30
32: exists Y: 31
33: not 32
34: 29 or 33
35: not 23
36: not 34
37: 35 or 34
38: 36 or 23
39: 37 and 38
40: Sing(a)
41: 40 and 39
42: Sing(b)
43: 42 and 41' '' print "$room/all.mona"

# nothing is written of what is refused
writes_nothing() { # STATUS BEGINNING WORDS...: of what is said; nothing on standard output, and no file made or changed
    wanted=$1 beginning=$2
    shift 2
    printf 'as it was' >"$room/old"
    touch -t 200001010000 "$room/old"
    rm -f "$room/new"
    for to in "$room/old" "$room/new" -; do
        "$command" "$@" -o "$to" >"$room/out" 2>"$room/err" <"${input:-/dev/null}"
        status=$?
        right=no
        case $(cat "$room/err") in "$beginning"*) right=yes ;; esac
        [ $status -eq "$wanted" ] && [ ! -s "$room/out" ] && [ ! -e "$room/new" ] && [ "$(cat "$room/old")" = 'as it was' ] &&
            [ -z "$(find "$room/old" -newermt 2000-01-02)" ] || right=no
        verdict $right "ws2s $* -o $to: expected status $wanted, nothing written, and: $beginning"
    done
}
refused_import() { # NUMBER FILE
    writes_nothing 3 "ws2s: $room/$2: refused $1" import "$room/$2"
}

# ---- texts: where they are refused
at_fault() { # NUMBER LINE COLUMN FOUND SHOWN MARK: of the text in $room/fault.mona
    case $1 in
    23) why=$grammar helps=$allowed ;;
    24) why=$naming helps=$declare ;;
    25) why='a name needs a ninth variable' helps='have at most 8 names in use at once' ;;
    esac
    sentence="ws2s: $room/fault.mona: refused $1 at line $2, column $3: $why ($4); $helps
    $5
    $6"
    expect 3 '' "$sentence" import "$room/fault.mona"
}
text fault.mona 'ws2s;\nvar2 Belt, Seat;\nall1 p: p in Belts => p in Seat;\n'
at_fault 24 3 14 '`Belts`' 'all1 p: p in Belts => p in Seat;' '             ^~~~~'
refused_import 24 fault.mona
expect 3 '' "$sentence" decide "$room/fault.mona"
expect 3 '' "$sentence" decide --svg "$room/fault.mona" a
expect 3 '' "$sentence" print "$room/fault.mona"
expect 3 '' "$sentence" judge "$room/fault.mona" "$room/tree"
input=$room/fault.mona
expect 3 '' "$(printf '%s' "$sentence" | sed "s|$room/fault.mona|standard input|")" print -
input=
text fault.mona 'ws2s; var2 A, B, A;'
at_fault 24 1 18 '`A`' 'ws2s; var2 A, B, A;' '                 ^'
text fault.mona 'ws2s;\r\nvar1 x;\r\n\tx sub x;\r\n'
at_fault 24 3 2 '`x`' '	x sub x;' '	^'
text fault.mona 'ws2s; var1 x;\n\t \tx = \ty;'
at_fault 24 2 9 '`y`' '	 	x = 	y;' '	 	    	^'
text fault.mona 'ws2s; var2 A, B, C, D, E, F, G, H;\nex2 I: I sub A;\n'
at_fault 25 2 5 '`I`' 'ex2 I: I sub A;' '    ^'
refused_import 25 fault.mona
text fault.mona 'ws2s; var1 a, b, c; var2 D, E, F, G, H, Ninth;\na = b;\n'
at_fault 25 1 41 '`Ninth`' 'ws2s; var1 a, b, c; var2 D, E, F, G, H, Ninth;' '                                        ^~~~~'
text fault.mona 'ws2s;\nvar2 X;\nX sub X <= X sub X;\n'
at_fault 23 3 9 '`<`' 'X sub X <= X sub X;' '        ^'
refused_import 23 fault.mona
text fault.mona 'ws2s;\nvar2 X;\nX sub X =>=> X sub X;\n'
at_fault 23 3 11 '`=>`' 'X sub X =>=> X sub X;' '          ^~'
text fault.mona 'ws2s;\nvar2 X;\nX sub X <=>\n<=> X sub X;\n'
at_fault 23 4 1 '`<=>`' '<=> X sub X;' '^~~'
text fault.mona 'ws2s;\nvar1 x;\nx = x.0.1;\n'
at_fault 23 3 8 '`.1`' 'x = x.0.1;' '       ^~'
text fault.mona 'var2 X; X sub X;'
at_fault 23 1 1 '`var2`' 'var2 X; X sub X;' '^~~~'
text fault.mona 'ws2s; ex1x: x = x;'
at_fault 24 1 7 '`ex1x`' 'ws2s; ex1x: x = x;' '      ^~~~'
text fault.mona 'ws2s; var2 X; X sub X; X sub X;'
at_fault 23 1 24 '`X`' 'ws2s; var2 X; X sub X; X sub X;' '                       ^'

# the end of the text: where the last token ends
text fault.mona 'ws2s;\nvar2 X;\nX sub X\n'
at_fault 23 3 8 'the text ends here' 'X sub X' '       ^'
text fault.mona 'ws2s; var2 X; X sub X'
at_fault 23 1 22 'the text ends here' 'ws2s; var2 X; X sub X' '                     ^'
text fault.mona 'ws2s; var2 X;\r\nX sub X\t\r\n\r\n \r\n'
at_fault 23 2 8 'the text ends here' 'X sub X	' '       ^'
text fault.mona 'ws'
at_fault 23 1 1 '`ws`' ws '^~'
text fault.mona '\n\n\t'
at_fault 23 1 1 'the text ends here' '' '^'
text fault.mona ''
at_fault 23 1 1 'the text is empty' '' '^'
refused_import 23 fault.mona
text fault.mona 'ws2s'
at_fault 23 1 5 'the text ends here' ws2s '    ^'

# bytes of all kinds: what would move the cursor is not sent to the terminal, and no sign that takes no width
text fault.mona 'ws2s;\nvar2 X\000Y;\n'
at_fault 23 2 7 'byte 0x00' 'var2 X?Y;' '      ^'
text fault.mona 'ws2s; var2 X;\nX \033[31m sub X;\a\n'
at_fault 23 2 3 'byte 0x1B' 'X ?[31m sub X;?' '  ^'
text fault.mona 'ws2s; var2 X;\rX \013 sub\r X; \302\205 \377 \342\200\256 \r\n'
at_fault 23 1 17 'byte 0x0B' 'ws2s; var2 X; X ? sub  X; ? ? ? ' '                ^'
text fault.mona 'ws2s;\n\tvar2 S\303\244tze;\n'
at_fault 23 2 8 '`ä`, byte 0xC3' '	var2 Sätze;' '	      ^'
text fault.mona 'ws2s; var2 X; X sub X ∧ X sub X; \342\200\213\n'
at_fault 23 1 23 '`∧`, byte 0xE2' 'ws2s; var2 X; X sub X ∧ X sub X; ?' '                      ^'
text fault.mona 'ws2s; var2 X; X \342\200\213sub X;\n'
at_fault 23 1 17 'byte 0xE2' 'ws2s; var2 X; X ?sub X;' '                ^'
text fault.mona 'ws2s; var2 X; X \342\201\246sub X; \342\200\250 \357\273\277\n'
at_fault 23 1 17 'byte 0xE2' 'ws2s; var2 X; X ?sub X; ? ?' '                ^'
text fault.mona 'ws2s; \357\273\277var2 X; X sub X;\n'
at_fault 23 1 7 'byte 0xEF' 'ws2s; ?var2 X; X sub X;' '      ^'
text fault.mona 'ws2s; var2 X; X \342\200'
at_fault 23 1 17 'byte 0xE2' 'ws2s; var2 X; X ??' '                ^'
text fault.mona 'ws2s; var2 X; X _ sub;'
at_fault 23 1 17 '`_`' 'ws2s; var2 X; X _ sub;' '                ^'
text fault.mona '\357\273\277ws2s; var2 X; X sub X;\n'
at_fault 23 1 1 'the file begins with a byte order mark: save it without one' '?ws2s; var2 X; X sub X;' '^'
expect 3 '' "$sentence" decide "$room/fault.mona"
text fault.mona '\377\376w\000s\0002\000s\000;\000'
at_fault 23 1 1 'the file is in UTF-16: save it as UTF-8' '??w?s?2?s?;?' '^'
expect 3 '' "$sentence" decide "$room/fault.mona"
text fault.mona '\376\377\000w\000s\0002\000s\000;'
at_fault 23 1 1 'the file is in UTF-16: save it as UTF-8' '???w?s?2?s?;' '^'
expect 3 '' "$sentence" print "$room/fault.mona"

# long lines are cut around the token, and long words
row() { # COUNT WORD: the word so often
    awk -v count="$1" -v word="$2" 'BEGIN { while (count-- > 0) printf "%s", word }'
}
text fault.mona "ws2s; var2 X; $(row 20 'X sub X & ')Y sub X & $(row 20 'X sub X & ')X sub X;\\n"
at_fault 24 1 215 '`Y`' '...b X & X sub X & X sub X & X sub X & Y sub X & X sub X & X sub X & X sub ...' "   $(row 36 ' ')^"
text fault.mona "ws2s; var2 X; $(row 5 'X sub X & ')Long sub X & $(row 20 'X sub X & ')X sub X;\\n"
at_fault 24 1 65 '`Long`' 'ws2s; var2 X; X sub X & X sub X & X sub X & X sub X & X sub X & Long sub...' "$(row 64 ' ')^~~~"
text fault.mona "ws2s; var2 X; $(row 5 'X sub X & ')Limits78 sub X;\\n" # ends with the window
at_fault 24 1 65 '`Limits78`' "ws2s; var2 X; $(row 5 'X sub X & ')Limits78..." "$(row 64 ' ')^~~~~~~~"
text fault.mona "ws2s; var2 X; $(row 5 'X sub X & ')TooLong99 sub X;\\n"
at_fault 24 1 65 '`TooLong99`' '...b X & X sub X & X sub X & X sub X & TooLong99 sub X;' "   $(row 36 ' ')^~~~~~~~~"
text fault.mona "ws2s; var2 X; $(row 50 a) sub X;"
at_fault 24 1 15 "\`$(row 40 a)...\`" "ws2s; var2 X; $(row 50 a) sub X;" "              ^$(row 49 '~')"
text fault.mona "ws2s; var2 X; $(row 40 a) sub X;"
at_fault 24 1 15 "\`$(row 40 a)\`" "ws2s; var2 X; $(row 40 a) sub X;" "              ^$(row 39 '~')"
text fault.mona "ws2s; var2 X; $(row 90 a) sub X;"
at_fault 24 1 15 "\`$(row 40 a)...\`" "ws2s; var2 X; $(row 58 a)..." "              ^$(row 57 '~')"
{ printf 'ws2s; var2 X; X sub X\n& ' && head -c 1048576 /dev/zero | tr '\000' a && printf ' sub X;\n'; } >"$room/fault.mona"
at_fault 24 2 3 "\`$(row 40 a)...\`" "& $(row 70 a)..." "  ^$(row 69 '~')"
{ printf 'ws2s; var2 X; X sub' && head -c 1048576 /dev/zero | tr '\000' ' ' && printf 'Y;'; } >"$room/fault.mona"
at_fault 24 1 1048596 '`Y`' "...$(row 36 ' ')Y;" "   $(row 36 ' ')^"
{ head -c 1048576 /dev/zero | tr '\000' '\n' && printf ' ws2s; var2 X; X sub Y;'; } >"$room/fault.mona"
at_fault 24 1048577 22 '`Y`' ' ws2s; var2 X; X sub Y;' '                     ^'

# long texts: names of a MiB, and as much between tokens
head -c 1048576 /dev/zero | tr '\000' a >"$room/name"
{ printf 'ws2s; var2 ' && cat "$room/name" && printf ', B; B sub\n\t' && cat "$room/name" && printf ';'; } >"$room/long.mona"
"$command" print "$room/long.mona" >"$room/out" 2>"$room/err"
status=$?
{ printf 'n=2\n0: B ⊆ ' && cat "$room/name" && echo; } >"$room/wanted"
same "$room/out" "$room/wanted" 'print of a name of a MiB'
{ echo && tr a ' ' <"$room/name" && cat "$room/inside.mona" && tr a '\t' <"$room/name"; } >"$room/blank.mona"
expect 0 12B800 '' decide --hex "$room/blank.mona"
"$command" import "$room/blank.mona" >"$room/out" 2>"$room/err"
status=$?
same "$room/out" "$room/inside" 'import of a MiB of blanks'
for blanks in 283 284 285 286 287 288 289 290 291 292 293 581 582 583; do # the word ws2s at the end of what is read first
    { head -c $blanks /dev/zero | tr '\000' ' ' && cat "$room/inside.mona"; } >"$room/blank.mona"
    expect 0 12B800 '' decide --hex "$room/blank.mona"
done

# too many records: no token, no line
text fault.mona "ws2s; var2 X; X sub X$(row 64 ' \\046 X sub X');"
expect 3 '' "ws2s: $room/fault.mona: refused 26: the text makes more than 128 records; split it" import "$room/fault.mona"
refused_import 26 fault.mona
text fault.mona "ws2s; var2 X; X sub X$(row 63 ' \\046 X sub X');"
expect 0 'shown: 0 places, 1 state
(the empty tree)' '' decide "$room/fault.mona"
text fault.mona "ws2s; var2 X; $(row 33 '(')X sub X$(row 33 ')');"
at_fault 23 1 47 '`(`' "ws2s; var2 X; $(row 33 '(')X sub X$(row 18 ')')..." "$(row 46 ' ')^"
text fault.mona "ws2s; var2 X; $(row 32 '(')X sub X$(row 32 ')');"
expect 0 'n=1
0: X ⊆ X' '' print "$room/fault.mona"

# ---- texts: their names
expect 0 'shown: 2 places, 4 states
seat
  belt' '' decide "$room/inside.mona"
expect 0 'shown: 2 places, 4 states
Sitz
  belt' '' decide "$room/inside.mona" belt Sitz
expect 0 'shown: 2 places, 4 states
seat
  Gurt' '' decide "$room/inside.mona" Gurt
refuses 64 'there are more names than variables' decide "$room/inside.mona" a b c
refuses 64 'there are more names than variables' print "$room/inside.mona" a b c
expect 0 'digraph tree {
    node [shape=box, style=rounded, fontname="sans-serif"];
    n0 [label="seat"];
    n1 [label="belt"];
    n0 -> n1;
}' '' decide --dot "$room/inside.mona"
expect 0 "$("$command" decide --svg "$room/inside" belt seat)" '' decide --svg "$room/inside.mona"
expect 0 12B800 '' decide --hex "$room/inside.mona"
input=$room/inside.mona
expect 0 'shown: 2 places, 4 states
seat
  belt' '' decide -
expect 0 'yes: the tree satisfies the rule' '' judge - "$room/fits"
input=
expect 0 'yes: the tree satisfies the rule' '' judge "$room/inside.mona" "$room/fits"
printf '\022\254\000' >"$room/beside"
expect 1 'no: the tree does not satisfy the rule' '' judge "$room/inside.mona" "$room/beside"
expect 3 '' "ws2s: $room/empty: refused 22: tree and rule have different numbers of variables; give the tree the rule's number" \
    judge "$room/inside.mona" "$room/empty"
expect 2 'larger: finite sets satisfy the rule, but all of them take more than 1 place' '' decide -p 1 "$room/inside.mona"
text none.mona 'ws2s; var1 x; x = x.0;'
expect 1 "$none" "$asks $room/none.mona" decide "$room/none.mona"

# a hidden name is told apart by its number; one number may have a name in each scope
text names.mona 'ws2s; var1 x; var2 Set;
(ex1 y: y = x.0 & (ex1 x: x = y.1 & x in Set)) & (all1 z: z in Set => (ex2 y: y sub Set))
& (ex1 only: only = root) & (ex1 only: only in Set);'
expect 0 'n=4
0: y_2 = x 1
1: x_3 = y_2 2
2: x_3 ⊆ Set
3: 1 and 2
4: Sing(x_3)
5: 4 and 3
6: exists x_3: 5
7: 0 and 6
8: Sing(y_2)
9: 8 and 7
10: exists y_2: 9
11: z ⊆ Set
12: not 11
13: y_3 ⊆ Set
14: exists y_3: 13
15: 12 or 14
16: not 15
17: Sing(z)
18: 17 and 16
19: exists z: 18
20: not 19
21: 10 and 20
22: only = ε
23: Sing(only)
24: 23 and 22
25: exists only: 24
26: 21 and 25
27: only ⊆ Set
28: Sing(only)
29: 28 and 27
30: exists only: 29
31: 26 and 30
32: Sing(x)
33: 32 and 31' '' print "$room/names.mona"
"$command" import "$room/names.mona" >"$room/names"
expect 0 "$("$command" print "$room/names" a b c d)" '' print "$room/names.mona" a b c d
expect 0 "$("$command" print "$room/names")" '' print "$room/names.mona" X0 X1 X2 X3
# a name that is given may make a namesake, or leave none
expect 0 "$("$command" print "$room/names.mona" | sed 's/\<x\>/q/g; s/x_3/x/g')" '' print "$room/names.mona" q
expect 0 "$("$command" print "$room/names.mona" | sed 's/\<z\>/z_2/; s/\<x\>/z/g; s/x_3/x/g')" '' print "$room/names.mona" z
text names.mona 'ws2s; ex1 x: all1 y: ex2 Z: x in Z <=> y in Z;'
expect 0 'n=3
0: x ⊆ Z
1: y ⊆ Z
2: not 0
3: not 1
4: 2 or 1
5: 3 or 0
6: 4 and 5
7: exists Z: 6
8: not 7
9: Sing(y)
10: 9 and 8
11: exists y: 10
12: not 11
13: Sing(x)
14: 13 and 12
15: exists x: 14' '' print "$room/names.mona"
text names.mona 'ws2s; var2 ex, var, ws2, Sub, all3;var1 ex3;var2 in2\r\n;~(ex sub var=>ws2 sub Sub)<=>all3 sub in2|(ex1 ex12:ex12=ex3.0);'
"$command" print "$room/names.mona" >"$room/out" 2>"$room/err"
status=$?
[ $status -eq 0 ] && [ "$(sed -n '1p; 2p; 4p; /ex12/p' "$room/out")" = 'n=8
0: ex ⊆ var
2: ws2 ⊆ Sub
6: ex12 = ex3 1
7: Sing(ex12)
9: exists ex12: 8' ] && right=yes || right=no
verdict $right 'names that begin as other words do'

# 14 names the record as the text does
many='a record needs more than c states' simplify='; raise c, at most to 64, or simplify that record'
expect 3 '' "ws2s: $room/inside.mona: refused 14: $many (record 2: 1 and 0)$simplify" decide -c 5 "$room/inside.mona"
expect 3 '' "ws2s: $room/inside.mona: refused 14: $many (record 0: belt = seat 1)$simplify" decide -c 3 "$room/inside.mona"
expect 3 '' "ws2s: $room/inside.mona: refused 14: $many (record 0: belt = seat 1)$simplify" \
    judge -c 3 "$room/inside.mona" "$room/fits"
expect 3 '' "ws2s: $room/inside.mona: refused 14: $many (record 0: a = seat 1)$simplify" decide -c 3 "$room/inside.mona" a
expect 3 '' "ws2s: $room/inside.mona: refused 11: a ceiling is out of range; c from 1 to 64, P at most 255" decide -c 65 "$room/inside.mona"
expect 3 '' "ws2s: samples/one_of_a_kind.mona: refused 14: $many (record 58: 43 or 57)$simplify" decide $samples/one_of_a_kind.mona

# ---- texts and strips are told apart
taken() { # NUMBER FILE: the refusal by which it is told, of decide, judge and print
    for words in "decide $room/$2" "judge $room/$2 $room/fits" "print $room/$2"; do
        # shellcheck disable=SC2086
        "$command" $words >"$room/out" 2>"$room/err"
        status=$?
        right=no
        [ $status -eq 3 ] && grep -q "^ws2s: $room/$2: refused $1[ :]" "$room/err" && right=yes
        verdict $right "$words: expected refused $1"
    done
}
text odd '# a comment\nws2s; var2 X; X sub X;\n'
taken 23 odd
text odd '(X sub X);'
taken 23 odd
text odd '\304\215'
taken 23 odd
text odd '"ws2s";\r\n'
taken 23 odd
text odd '\n'
taken 23 odd
text odd 'ws2s;\000\001\002'
taken 23 odd
text odd ' \t\r\nws2s\177'
taken 23 odd
text odd ''
taken 1 odd
text odd '\022'
taken 1 odd
text odd '\042\001\040\000\100'
taken 2 odd
text odd 'w\001\040\000\100'
taken 2 odd
text odd 'Belt\177'
taken 2 odd
text odd '\021w'
taken 5 odd
refuses 3 "refused 2 at bit 0: the rule's version is not 1 (byte 0, bit 0, counted from 0 and from the left: it says 7)" check rule "$room/inside.mona"
expect 3 '' "ws2s: $samples/first_inside.rul: refused 23 at line 1, column 1: $grammar (byte 0x12); $allowed
    ?? ?@
    ^" import $samples/first_inside.rul
input=/dev/zero
expect 3 '' "ws2s: standard input: refused 23 at line 1, column 1: $grammar (byte 0x00); $allowed
    $(row 72 '?')...
    ^" import -
input=
{ row 285 ' ' && printf 'nothing like a rule'; } >"$room/fault.mona" # of which 291 bytes are read
at_fault 23 1 286 '`nothin...`' "...$(row 36 ' ')nothin..." "   $(row 36 ' ')^~~~~~"
yes 'not a rule' 2>/dev/null | "$command" decide - >"$room/out" 2>"$room/err"
status=$?
[ $status -eq 3 ] && grep -qF "standard input: refused 23 at line 1, column 1: $grammar (\`not\`)" "$room/err" && right=yes || right=no
verdict $right 'decide of endless lines that begin no text'
{ cat "$room/inside.mona" && cat $samples/first_inside.rul; } >"$room/fault.mona"
at_fault 23 1 38 'byte 0x12' 'ws2s; var1 belt, seat; belt = seat.0;?? ?@' "$(row 37 ' ')^"

# ---- a wrong command line
for words in '' 'frobnicate' 'decide' 'decide --frob x' 'decide -c x' 'decide -c' 'decide -p 1x' 'decide -c -1 x' 'decide --hex --svg x' \
    'judge x' 'judge x y z' 'judge -p 1 x y' 'judge --hex x y' 'judge - -' 'check' 'check rule' 'check leaf x' 'check rule x y' 'check -c 1 rule x' \
    'import' 'import x y' 'import x -o' 'import -o x' 'import -c 1 x' 'import --hex x' 'import x -o y -o z' 'decide -o x y' 'print -o x y' 'check -o x rule y' \
    'join' 'join x' 'join x y z' 'join x y -o' 'join -o x y' 'join -c 1 x y' 'join -p 1 x y' 'join --hex x y' 'join --strip x y' 'join x y -o z -o z' 'join - -' \
    'print' 'print --hex x' 'print -c 1 x' 'tree' 'tree --strip x' 'tree -p 1 x' 'decide x 1 2 3 4 5 6 7 8 9' 'tree x 1 2 3 4 5 6 7 8 9 10 11' '-x'; do
    # shellcheck disable=SC2086
    refuses 64 'ws2s --help says how it is used' $words
done
refuses 64 '-c and -p take a number' decide -c
refuses 64 'there is no such option' decide --frob x
refuses 64 '-o takes a file' import x -o
refuses 64 '-o is for another subcommand' decide -o x y
refuses 64 'one file can be written at a time' import x -o y -o z
refuses 64 'the form is for another subcommand' tree --strip x
refuses 64 'there are more names than variables' decide $samples/first_inside.rul a b c
refuses 64 'there are more names than variables' print $samples/one_part.rul a b
refuses 64 'there are more names than variables' tree "$room/empty" a b
for name in '' 'a	b' "$(printf 'a\nb')" "$(printf '\033[31m')" "$(printf 'a\177')" "$(printf '\302\205')" "$(printf 'a\377')" "$(printf '\303')" \
    "$(printf '\300\200')" "$(printf '\355\240\200')" "$(printf '\357\277\276')" "$(printf '\364\220\200\200')" "$(printf '\340\200\257')"; do
    refuses 64 'a name must be text that can be printed' decide $samples/first_inside.rul "$name"
done
expect 0 'shown: 1 place, 3 states
𝔵 ž' '' decide $samples/one_part.rul '𝔵 ž'
expect 0 'shown: 1 place, 3 states
-x' '' decide -- $samples/one_part.rul -x

# ---- help
"$command" --help >"$room/help" && [ "$(wc -l <"$room/help")" -gt 20 ] || { echo 'no help'; failed=$((failed + 1)); }
for name in decide clash judge check print tree import join; do
    grep -q "^\(usage:\|      \) ws2s $name " "$room/help" && grep -q "^$name  *[a-z]" "$room/help" && right=yes || right=no
    verdict $right "help says nothing of $name"
done
for words in -h help 'decide --help' 'judge -h x' 'tree --help' 'import --help' 'join x -h' 'join --help'; do
    # shellcheck disable=SC2086
    expect 0 "$(cat "$room/help")" '' $words
done
expect 0 "ws2s $(sed -n 's/^#define WS2S_VERSION "\(.*\)"$/\1/p' include/ws2s.h)" '' --version

# ---- trouble with files
refuses 74 "$room/missing: No such file or directory" decide "$room/missing"
refuses 74 "$room: Is a directory" decide "$room"
refuses 74 "$room/missing: No such file or directory" judge $samples/one_part.rul "$room/missing"
refuses 74 "$room: Is a directory" tree "$room"
refuses 74 "$room/missing: No such file" check tree "$room/missing"
refuses 74 "$room: Is a directory" print "$room"
input=$room
refuses 74 'standard input: Is a directory' check rule -
refuses 74 'standard input: Is a directory' decide -
refuses 74 'standard input: Is a directory' import -
input=
refuses 74 "$room/missing: No such file or directory" import "$room/missing"
refuses 74 "$room: Is a directory" import "$room"
refuses 74 "$room: Is a directory" import "$room/inside.mona" -o "$room"
refuses 74 "$room/missing/made: No such file or directory" import "$room/inside.mona" -o "$room/missing/made"
refuses 74 '/dev/full: No space left on device' import "$room/inside.mona" -o /dev/full
# a text is not overwritten by its own strip
cp "$room/inside.mona" "$room/own.mona" && ln -s own.mona "$room/link"
for to in own.mona link ./own.mona; do
    refuses 64 'the strip would replace the text' import "$room/own.mona" -o "$room/$to"
done
input=$room/own.mona
refuses 64 'the strip would replace the text' import - -o "$room/own.mona"
input=
cmp -s "$room/inside.mona" "$room/own.mona" && right=yes || right=no
verdict $right 'the text is as it was'
cat "$room/inside.mona" | "$command" import - -o /dev/null >"$room/out" 2>"$room/err"
status=$?
same "$room/out" /dev/null 'import into nothing'
input=/dev/null
expect 3 '' "ws2s: standard input: refused 23 at line 1, column 1: $grammar (the text is empty); $allowed
    
    ^" import - -o /dev/null
input=
# a text that there is no memory for
head -c 67108864 /dev/zero | tr '\000' ' ' | (ulimit -v 40000 && exec "$command" decide -) >"$room/out" 2>"$room/err"
status=$?
[ $status -eq 74 ] && [ "$(cat "$room/err")" = 'ws2s: standard input: Cannot allocate memory' ] && [ ! -s "$room/out" ] && right=yes || right=no
verdict $right 'decide of 64 MiB of blanks with less memory'

# ---- clash
expect 0 '0: X0 ⊆ X1
1: X1 ⊆ X2
6: not (X0 ⊆ X2)' '' clash $samples/kinds_in_a_circle.rul
expect 0 '0: belt ⊆ strap
1: strap ⊆ X2
6: not (belt ⊆ X2)' '' clash $samples/kinds_in_a_circle.rul belt -c 4 strap
expect 0 '0: Belt ⊆ Strap
1: Strap ⊆ other
6: not (Belt ⊆ other)' '' clash $samples/kinds_in_a_circle.mona Belt Strap other
expect 0 '0: report = ε
1: report = other 1' '' clash -- $samples/report_inside_another.mona
expect 0 '1: X0 ⊆ X1
3: X1 ⊆ X2
6: not (X0 ⊆ X2)' '' clash $samples/belt_did_not_fire.rul
satisfied='the rule can be satisfied, so no requirements clash; decide it, to be shown how'
expect 3 '' "ws2s: samples/first_inside.rul: refused 29: $satisfied" clash $samples/first_inside.rul
expect 3 '' "ws2s: samples/first_inside.mona: refused 29: $satisfied" clash $samples/first_inside.mona
expect 3 '' 'ws2s: samples/first_inside.rul: refused 11: a ceiling is out of range; c from 1 to 64, P at most 255' clash -c 0 $samples/first_inside.rul
refuses 3 'samples/kinds_in_a_circle.rul: refused 14: a record needs more than c states (record 2: 0 and 1); raise c' clash -c 3 $samples/kinds_in_a_circle.rul
# X1 = X0 1, X0 = X2 1, X1 sub X2: without the third the first two have more states than the rule
printf '\023\005\040\040\010\000\040\002\011\300\202\160\000\300' >"$room/trial.rul"
expect 0 '0: belt = seat 1
1: seat = X2 1
2: belt ⊆ X2' '' clash -c 11 "$room/trial.rul" seat belt
expect 3 '' "ws2s: $room/trial.rul: refused 14: $many (in a trial, joining record 1: seat = X2 1)$simplify" clash -c 9 "$room/trial.rul" seat belt
expect 1 "$none" "$asks -c 9 $room/trial.rul" decide -c 9 "$room/trial.rul"
refuses 3 "$room/trial.rul: refused 14: $many (record 3: 1 and 2); raise c" clash -c 6 "$room/trial.rul"
refuses 3 'refused 5 at bit 32: the rule'\''s length does not fit its records (1 record takes 5 bytes, and there are 4)' clash $samples/cut_short.rul
refuses 3 'refused 9 at bit 38: a record names itself or a later record (record 1, first field: not 2)' clash $samples/out_of_order.rul
"$command" decide $samples/out_of_order.mona >"$room/out" 2>"$room/fault"
expect 3 '' "$(cat "$room/fault")" clash $samples/out_of_order.mona
refuses 64 'there are more names than variables' clash $samples/report_inside_another.rul a b c
refuses 64 '-c or -p is for another subcommand' clash -p 3 $samples/kinds_in_a_circle.rul
refuses 64 'the form is for another subcommand' clash --hex $samples/kinds_in_a_circle.rul
refuses 64 'there are too few words' clash
refuses 64 'there are too many words' clash $samples/one_part.rul a b c d e f g h i
refuses 74 "$room/missing: No such file or directory" clash "$room/missing"
input=$samples/kinds_in_a_circle.mona
expect 0 '0: Belt ⊆ Strap
1: Strap ⊆ Band
6: not (Belt ⊆ Band)' '' clash -
expect 1 "$none" "$asks -" decide -
input=
# sixteen requirements, and one more
joined() { # COUNT: a rule of so many parts, of which the last alone clashes
    set -- "$1"
    for part in $(seq $(($1 - 1))); do set -- "$@" '0 0 0'; done
    set -- "$@" '2 0 0' '7 0 1'
    for part in $(seq 2 $(($1 - 1))); do set -- "$@" "7 $(($1 + part - 2)) $part"; done
    shift
    rule parts 1 "$@"
}
joined 16
expect 0 '15: X0 = X0 1' '' clash "$room/parts"
joined 17
expect 3 '' "ws2s: $room/parts: refused 28: more than 16 requirements are joined by \"and\"; ask about a rule with some of them" clash "$room/parts"
# how to ask is told as a shell takes it
cp $samples/kinds_in_a_circle.rul "$room/it's a rule"
expect 1 "$none" "$asks -c 14 '$room/it'\\''s a rule' 'a kind' b '\$c'" decide -c 14 "$room/it's a rule" 'a kind' b '$c'
expect 1 "$none" "$asks -- $samples/kinds_in_a_circle.rul -a -b" decide $samples/kinds_in_a_circle.rul -- -a -b
sed -n "s/^$asks/clash/p" "$room/err" >"$room/asked"
eval "\"\$command\" $(cat "$room/asked")" >"$room/out" 2>"$room/err"
status=$?
[ "$(cat "$room/out")" = "0: -a ⊆ -b
1: -b ⊆ X2
6: not (-a ⊆ X2)" ] && right=yes || right=no
verdict $right 'what is told of clash, asked'
# each reading of records, whole and in brackets where it must be: a formula, and that it does not hold
sense() { # WORDS NUMBER NUMBER FORMULA
    text sense.mona "ws2s; var2 A, B; ($4) & ~($4);"
    expect 0 "$2: $1
$3: not ($1)" '' clash "$room/sense.mona"
}
sense 'A ⊆ B or not (B ⊆ A)' 3 8 'A sub B | ~B sub A'
sense '(A ⊆ B and B ⊆ A) or A ⊆ B' 4 10 '(A sub B & B sub A) | A sub B'
sense 'if (if A ⊆ B then B ⊆ A) then A ⊆ A and B ⊆ A' 8 18 '(A sub B => B sub A) => A sub A & B sub A'
sense 'exists one x: x ⊆ A and (x ⊆ B or x = ε)' 7 16 'ex1 x: x in A & (x in B | x = root)'
sense 'for each x: if x ⊆ A then (exists one y: y ⊆ B and x = y 2)' 13 28 'all1 x: x in A => (ex1 y: y in B & x = y.1)'
sense 'for all X: if X ⊆ A then X ⊆ B' 6 14 'all2 X: X sub A => X sub B'
sense 'exists X: X ⊆ A and (A ⊆ B exactly if B ⊆ X)' 9 20 'ex2 X: X sub A & (A sub B <=> B sub X)'
sense 'not (A ⊆ B and B ⊆ A)' 3 8 '~(A sub B & B sub A)'
sense 'not (exists X: X ⊆ A and not (X ⊆ B))' 5 12 '~ex2 X: X sub A & ~X sub B'
sense 'if (exists X: A ⊆ X) then A ⊆ B' 4 10 '(ex2 X: A sub X) => A sub B'
# a record that is written again and again is not written whole
rule again 1 '2 0 0' '6 0 0' '6 1 1' '6 2 2' '6 3 3' '6 4 4' '6 5 5' '6 6 6'
expect 0 "7: $(for number in $(seq 127); do printf 'X0 = X0 1 or '; done)X0 = X0 1" '' clash "$room/again"
rule again 1 '2 0 0' '6 0 0' '6 1 1' '6 2 2' '6 3 3' '6 4 4' '6 5 5' '6 6 6' '6 7 7'
expect 0 '8: 7 or 7 (too long to be written whole; ws2s print has the records)' '' clash "$room/again"

# ---- join
# two teams, as texts and as the same strips: n is the larger; of the second, numbers of records are moved up and those of
# variables not; last an "and" of both
text belt.mona 'ws2s; var2 Belt, Seat; Belt sub Seat & ~Seat sub Belt;'
text seat.mona 'ws2s; var2 Belt, Seat, Report; (ex1 s: s in Seat) & Seat sub Report;'
rule belt.rul 2 '0 0 1' '0 1 0' '5 1 0' '7 0 2'
rule seat.rul 4 '0 3 1' '1 3 0' '7 1 0' '8 3 2' '0 1 2' '7 3 4'
rule belt_seat 4 '0 0 1' '0 1 0' '5 1 0' '7 0 2' '0 3 1' '1 3 0' '7 5 4' '8 3 6' '0 1 2' '7 7 8' '7 3 9'
rule seat_belt 4 '0 3 1' '1 3 0' '7 1 0' '8 3 2' '0 1 2' '7 3 4' '0 0 1' '0 1 0' '5 7 0' '7 6 8' '7 5 9'
rule belt_belt 2 '0 0 1' '0 1 0' '5 1 0' '7 0 2' '0 0 1' '0 1 0' '5 5 0' '7 4 6' '7 3 7'
joins() { # STRIP WORDS...: it is written, to standard output and to files, new and longer, and nothing is said
    asked=$room/$1
    shift
    "$command" join "$@" >"$room/out" 2>"$room/err" <"${input:-/dev/null}"
    status=$?
    same "$room/out" "$asked" "join $* to standard output"
    "$command" join -o - "$@" >"$room/out" 2>"$room/err" <"${input:-/dev/null}"
    status=$?
    same "$room/out" "$asked" "join $* to -"
    rm -f "$room/made"
    for times in 1 2; do
        expect 0 '' '' join "$@" -o "$room/made"
        same "$room/made" "$asked" "join $* to a file"
        head -c 300 /dev/zero >"$room/made"
    done
    expect 0 '' '' join -o"$room/made" -- "$@"
    same "$room/made" "$asked" "join $* with the option and its file in one word"
}
for one in rul mona; do
    for other in rul mona; do
        joins belt_seat "$room/belt.$one" "$room/seat.$other"
        joins seat_belt "$room/seat.$one" "$room/belt.$other"
    done
    input=$room/belt.$one
    joins belt_seat - "$room/seat.mona"
    joins seat_belt "$room/seat.rul" -
    joins belt_belt - "$room/belt.$one"
    input=
    joins belt_belt "$room/belt.$one" "$room/belt.$one"
done
"$command" join "$room/belt.rul" "$room/seat.mona" | "$command" decide - Belt Seat Report >"$room/out" 2>"$room/err"
status=$?
[ $status -eq 0 ] && [ "$(cat "$room/out")" = 'shown: 1 place, 3 states
Seat + Report' ] && [ ! -s "$room/err" ] && right=yes || right=no
verdict $right 'decide of what is joined'
cat "$room/belt.mona" | "$command" join - "$room/seat.rul" >"$room/out" 2>"$room/err"
status=$?
same "$room/out" "$room/belt_seat" 'join of a pipe'
# texts that are read on, both of them, stay apart
for team in belt seat; do { row 400 ' ' && cat "$room/$team.mona" && row 400 ' '; } >"$room/long_$team.mona"; done
joins belt_seat "$room/long_belt.mona" "$room/long_seat.mona"

# a refusal is that of the file alone, with its name; the first file's comes first, of whatever kind it is
alone() { # FILE: what is said of it by decide
    { "$command" decide "$1" >/dev/null; } 2>&1
}
text fault.mona 'ws2s;\nvar2 Belt, Seat;\nBelt sub Seats;\n'
text other_fault.mona 'ws2s; var2 X; X sub X'
rule fault.rul 3 '0 0 1' '5 2 0'
strip other_fault.rul 022 001 040 000
text other.mona 'ws2s; var2 Other; Other sub Other;'
for kind in rul mona; do
    for good in belt.rul belt.mona other.mona; do
        writes_nothing 3 "$(alone "$room/fault.$kind")" join "$room/fault.$kind" "$room/$good"
        writes_nothing 3 "$(alone "$room/fault.$kind")" join "$room/$good" "$room/fault.$kind"
        expect 3 '' "$(alone "$room/fault.$kind")" join "$room/$good" "$room/fault.$kind"
    done
    for other in rul mona; do
        expect 3 '' "$(alone "$room/fault.$kind")" join "$room/fault.$kind" "$room/other_fault.$other"
        expect 3 '' "$(alone "$room/other_fault.$kind")" join "$room/other_fault.$kind" "$room/fault.$other"
    done
    expect 3 '' "$(alone "$room/fault.$kind")" join "$room/fault.$kind" "$room/missing"
done
expect 3 '' "ws2s: $room/fault.mona: refused 24 at line 3, column 10: $naming (\`Seats\`); $declare
    Belt sub Seats;
             ^~~~~" join "$room/belt.rul" "$room/fault.mona"
expect 3 '' "ws2s: $room/fault.rul: refused 9 at bit 38: a record names itself or a later record (record 1, first field: not 2); put the record that it uses before it" \
    join "$room/belt.mona" "$room/fault.rul"
input=$room/fault.rul
writes_nothing 3 'ws2s: standard input: refused 9 at bit 38: ' join "$room/belt.mona" -
input=$room/fault.mona
writes_nothing 3 'ws2s: standard input: refused 24 at line 3, column 10: ' join - "$room/belt.rul"
input=/dev/zero
writes_nothing 3 'ws2s: standard input: refused 2 at bit 0: ' join "$room/belt.mona" -
input=
writes_nothing 3 'ws2s: standard input: refused 1 at bit 0: ' join - "$room/belt.mona"

# 128 records, and one more: both files are named, with the records of each; names do not matter then
plain() { # COUNT: a rule and a text of so many records; of a text they are odd
    set -- "$1"
    for record in $(seq "$1"); do set -- "$@" '0 0 0'; done
    count=$1
    shift
    rule "$count.rul" 1 "$@"
    text "$count.mona" "ws2s; var2 Of$count; Of$count sub Of$count$(row $((count / 2)) " \\046 Of$count sub Of$count");"
}
plain 63 && plain 64 && plain 65 && plain 127 && plain 128 && plain 1
expect 0 '' '' join "$room/63.rul" "$room/64.rul" -o "$room/made"
expect 0 'accepted: 1 variable, 128 records' '' check rule "$room/made"
"$command" print "$room/made" | tail -n 1 >"$room/out"
[ "$(cat "$room/out")" = '127: 62 and 126' ] && right=yes || right=no
verdict $right 'the 128th record'
records='the two rules have more than 127 records together' shorten='shorten one of them: the "and" that joins them is the 128th record'
for kind in rul mona; do
    expect 3 '' "ws2s: $room/63.rul and $room/65.$kind: refused 30: $records (the first has 63, the second 65); $shorten" join "$room/63.rul" "$room/65.$kind"
    expect 3 '' "ws2s: $room/65.$kind and $room/63.mona: refused 30: $records (the first has 65, the second 63); $shorten" join "$room/65.$kind" "$room/63.mona"
done
writes_nothing 3 "ws2s: $room/127.rul and $room/1.rul: refused 30: $records (the first has 127, the second 1); " join "$room/127.rul" "$room/1.rul"
writes_nothing 3 "ws2s: $room/128.rul and $room/128.rul: refused 30: $records (the first has 128, the second 128); " join "$room/128.rul" "$room/128.rul"
input=$room/64.rul
writes_nothing 3 "ws2s: $room/64.rul and standard input: refused 30: $records (the first has 64, the second 64); " join "$room/64.rul" -
input=

# texts that do not agree in what a number is called are joined all the same, and it is said
differing() { # STRIP ERR FIRST SECOND
    expect 0 '' "$2" join "$room/$3" "$room/$4" -o "$room/made"
    : >"$room/err"
    same "$room/made" "$room/$1" "join of $3 and $4, which differ in names"
    "$command" join "$room/$3" "$room/$4" >"$room/out" 2>"$room/err"
    status=$?
    [ "$(cat "$room/err")" = "$2" ] && : >"$room/err"
    same "$room/out" "$room/$1" "join of $3 and $4 to standard output"
}
agree='; they are joined by number: declare the same names in the same order in both' kinds=', a place with var1 and a set with var2'
text turned.mona 'ws2s; var2 Seat, Belt; Seat sub Belt & ~Belt sub Seat;' # by number the strip of belt.mona
differing belt_belt "ws2s: variable 0 is \`Belt\` in $room/belt.mona and \`Seat\` in $room/turned.mona$agree
ws2s: variable 1 is \`Seat\` in $room/belt.mona and \`Belt\` in $room/turned.mona$agree" belt.mona turned.mona
differing belt_belt "ws2s: variable 0 is \`Seat\` in $room/turned.mona and \`Belt\` in $room/belt.mona$agree
ws2s: variable 1 is \`Belt\` in $room/turned.mona and \`Seat\` in $room/belt.mona$agree" turned.mona belt.mona
text belts.mona 'ws2s; var2 Belts, Seat; Belts sub Seat & ~Seat sub Belts;'
differing belt_belt "ws2s: variable 0 is \`Belt\` in $room/belt.mona and \`Belts\` in $room/belts.mona$agree" belt.mona belts.mona
differing belt_seat "ws2s: variable 0 is \`Belts\` in $room/belts.mona and \`Belt\` in $room/seat.mona$agree" belts.mona seat.mona
text place.mona 'ws2s; var2 Belt; var1 Seat; Belt sub Belt;'
rule place 2 '0 0 1' '0 1 0' '5 1 0' '7 0 2' '0 0 0' '1 1 0' '7 5 4' '7 3 6'
differing place "ws2s: variable 1 is the set \`Seat\` in $room/belt.mona and the place \`Seat\` in $room/place.mona; they are joined by number: declare it with var1 in both, or with var2 in both" \
    belt.mona place.mona
text place.mona 'ws2s; var2 Belt;\n  var1 seat;Belt sub Belt;'
differing place "ws2s: variable 1 is the set \`Seat\` in $room/belt.mona and the place \`seat\` in $room/place.mona$agree$kinds" belt.mona place.mona
text set.mona 'ws2s; var2 A; var2 B; A sub B & ~B sub A;'
rule set 2 '0 0 0' '1 1 0' '7 1 0' '0 0 1' '0 1 0' '5 4 0' '7 3 5' '7 2 6'
differing set "ws2s: variable 0 is \`Belt\` in $room/place.mona and \`A\` in $room/set.mona$agree
ws2s: variable 1 is the place \`seat\` in $room/place.mona and the set \`B\` in $room/set.mona$agree$kinds" place.mona set.mona
# places that differ, and eight names of which the last does
text eight.mona 'ws2s; var1 a, b, c, d; var1 e; var2 F; var2 G, H; a = a;'
text other_eight.mona 'ws2s; var1 a, b, c, d, f; var2 F, G, I; a = a;'
expect 0 '' "ws2s: variable 4 is \`e\` in $room/eight.mona and \`f\` in $room/other_eight.mona$agree
ws2s: variable 7 is \`H\` in $room/eight.mona and \`I\` in $room/other_eight.mona$agree" join "$room/eight.mona" "$room/other_eight.mona" -o "$room/made"
input=$room/turned.mona
expect 0 '' "ws2s: variable 0 is \`Seat\` in standard input and \`Belts\` in $room/belts.mona$agree
ws2s: variable 1 is \`Belt\` in standard input and \`Seat\` in $room/belts.mona$agree" join - "$room/belts.mona" -o "$room/made"
input=
# nothing is said of a strip, of numbers that one text alone declares, of what is bound or hidden, or of one file by two names
ln -s turned.mona "$room/turned_link"
silent() { # FIRST SECOND
    expect 0 '' '' join "$room/$1" "$room/$2" -o "$room/made"
}
silent turned.mona turned.mona
silent turned.mona turned_link
silent turned.mona belt.rul
silent belt.rul turned.mona
silent seat.mona belt.mona
text bound.mona 'ws2s; var2 Belt; (ex1 s: s in Belt) & (all2 Seats: Seats sub Belt);'
text hidden.mona 'ws2s; var2 Belt, Seat; (ex1 Belt: Belt in Seat) & (all2 Seat: Seat sub Belt);'
text free.mona 'ws2s; ex1 x: x = root;'
silent bound.mona belt.mona
silent seat.mona bound.mona
silent hidden.mona belt.mona
silent seat.mona hidden.mona
silent bound.mona hidden.mona
silent free.mona belt.mona
silent seat.mona free.mona
# long names are told by their beginnings
text forty.mona "ws2s; var2 $(row 40 a), $(row 41 b); $(row 40 a) sub $(row 41 b);"
expect 0 '' "ws2s: variable 0 is \`$(row 40 a)\` in $room/forty.mona and \`Belt\` in $room/belt.mona$agree
ws2s: variable 1 is \`$(row 40 b)...\` in $room/forty.mona and \`Seat\` in $room/belt.mona$agree" join "$room/forty.mona" "$room/belt.mona" -o "$room/made"

# a rule is not overwritten by what it is joined to
cp "$room/belt.mona" "$room/own" && cp "$room/own" "$room/own_was" && ln -sf own "$room/link" && ln "$room/own" "$room/hard"
for to in own link hard ./own; do
    refuses 64 'the strip would replace one of the two rules' join "$room/own" "$room/seat.rul" -o "$room/$to"
    refuses 64 'the strip would replace one of the two rules' join "$room/seat.rul" "$room/own" -o "$room/$to"
    refuses 64 'the strip would replace one of the two rules' join "$room/link" "$room/own" -o "$room/$to"
    input=$room/own
    refuses 64 'the strip would replace one of the two rules' join - "$room/seat.rul" -o "$room/$to"
    refuses 64 'the strip would replace one of the two rules' join "$room/seat.rul" - -o "$room/$to"
    input=
done
cmp -s "$room/own" "$room/own_was" && right=yes || right=no
verdict $right 'the rule that is joined is as it was'
refuses 64 'the two rules cannot both be standard input' join - -
refuses 64 'there are too few words' join "$room/belt.rul"
refuses 64 'there are too many words' join "$room/belt.rul" "$room/seat.rul" "$room/belt.rul"
refuses 64 '-c or -p is for another subcommand' join -c 3 "$room/belt.rul" "$room/seat.rul"
refuses 64 'the form is for another subcommand' join --strip "$room/belt.rul" "$room/seat.rul"
writes_nothing 74 "ws2s: $room/missing: No such file or directory" join "$room/missing" "$room/belt.rul"
writes_nothing 74 "ws2s: $room/missing: No such file or directory" join "$room/belt.rul" "$room/missing"
refuses 74 "$room/missing: No such file or directory" join "$room/missing" "$room/fault.rul"
refuses 74 "$room: Is a directory" join "$room" "$room/belt.rul"
refuses 74 "$room: Is a directory" join "$room/belt.mona" "$room"
input=$room
refuses 74 'standard input: Is a directory' join - "$room/belt.rul"
refuses 74 'standard input: Is a directory' join "$room/belt.rul" -
input=
refuses 74 "$room: Is a directory" join "$room/belt.rul" "$room/seat.mona" -o "$room"
refuses 74 "$room/missing/made: No such file or directory" join "$room/belt.rul" "$room/seat.mona" -o "$room/missing/made"
refuses 74 '/dev/full: No space left on device' join "$room/belt.rul" "$room/seat.mona" -o /dev/full

told() { # WHAT STATUS: standard error has this, once
    right=no
    [ "$status" -eq "$2" ] && [ "$(cat "$room/err")" = "ws2s: standard output: $1" ] && right=yes
    verdict $right "expected status $2 and: $1"
}
: >"$room/out"
for words in "decide $samples/first_inside.rul" "decide --svg $samples/first_inside.rul" "decide --strip $samples/first_inside.rul" \
    "decide $samples/kinds_in_a_circle.rul" "decide -p 1 $samples/first_inside.rul" "judge $samples/crash_report.rul $room/tree" \
    "clash $samples/kinds_in_a_circle.rul" \
    "import $room/inside.mona" "join $room/belt.rul $room/seat.mona" "print $room/inside.mona" \
    "check rule $samples/one_part.rul" "print $samples/one_part.rul" "print $samples/cut_short.rul" "tree $room/tree" '--help' '--version'; do
    # shellcheck disable=SC2086
    "$command" $words >/dev/full 2>"$room/err"
    status=$?
    sed -i '/refused 5/d' "$room/err"
    told 'No space left on device' 74
    # shellcheck disable=SC2086
    "$command" $words >&- 2>"$room/err"
    status=$?
    sed -i '/refused 5/d' "$room/err"
    told 'Bad file descriptor' 74
done
{ sleep 0.2; "$command" decide $samples/first_inside.rul 2>"$room/err"; echo $? >"$room/status"; } | :
status=$(cat "$room/status")
told 'Broken pipe' 74
"$command" decide - <&- >"$room/out" 2>"$room/err"
status=$?
[ "$status" -eq 74 ] && [ "$(cat "$room/err")" = 'ws2s: standard input: Bad file descriptor' ] && right=yes || right=no
verdict $right 'standard input closed'
# what has nothing to write needs no output
"$command" decide $samples/cut_short.rul >&- 2>"$room/err"
status=$?
[ "$status" -eq 3 ] && right=yes || right=no
verdict $right 'refused, with standard output closed'

echo "command: $passed passed, $failed failed"
[ "$failed" -eq 0 ]
