#!/usr/bin/env bash
# `--from RESULT`: the search begins with a solution, and a result that is not right is refused as `check` would.
source "$(dirname "$0")/../lib"

lines text 'h 1 2 0' '3 -1 0' '4 -2 0'

# began NAME STATUS LINE..: from `from` in the profiles (1, 2 and 3, or PROFILES), what is printed; the certificate of an
# optimum checks
began() {
    local name=$1 wanted=$2 profile
    shift 2
    for profile in ${PROFILES:-1 2 3}; do
        rm -f "$work/proof"
        call solve --profile $profile --from from --proof proof text
        expect "$name, profile $profile" "$wanted" "$(printf '%s\n' "$@")" ''
        [ "$wanted" = 30 ] || continue
        printf '%s\n' "$out" > "$work/result"
        call check --profile $profile text result proof
        expect "$name, profile $profile: the certificate" 0 YES ''
    done
}

# As `--best` keeps it, as another solver prints it, with dearer costs before.
lines from 'o 3' 's OPTIMUM FOUND' 'v 10'
began 'an optimum' 30 'o 3' 's OPTIMUM FOUND' 'v 10'
lines from 'c said' 'o 9' 'o 3' 's SATISFIABLE' 'v 10'
began 'a solution' 30 'o 3' 's OPTIMUM FOUND' 'v 10'
lines from 's UNKNOWN'
PROFILES='1 2' began 'nothing' 30 'o 3' 's OPTIMUM FOUND' 'v 10'
PROFILES=3 began 'nothing' 30 'o 4' 'o 3' 's OPTIMUM FOUND' 'v 10'
lines text 'h 1 0' '3 2 0'
lines from 'o 0' 's SATISFIABLE' 'v 11'
began 'no cost' 30 'o 0' 's OPTIMUM FOUND' 'v 11'
lines text 'p wcnf 3 3 10' '10 1 2 0' '3 -1 0' '4 -2 0'
lines from 'o 3' 's SATISFIABLE' 'v 101'
for profile in 1 3; do
    call solve --profile $profile --from from text
    ok "the older form, profile $profile" [ "$status $(head -n 2 <<< "$out" | paste -sd ' ')" = '30 o 3 s OPTIMUM FOUND' ]
done
: > "$work/text"
lines from 'o 0' 's SATISFIABLE' 'v'
call solve --from from text
expect 'no clause' 30 $'o 0\ns OPTIMUM FOUND\nv' 'warning: no clause was read'

# No effort: nothing is found, and what was given is not told.
lines text 'h 1 2 0' '3 -1 0' '4 -2 0'
lines from 'o 3' 's SATISFIABLE' 'v 10'
call solve --from from --conflicts 0 text
expect 'no effort' 0 's UNKNOWN' ''
cp examples/roster.wcnf "$work/text"
call solve text
tail -n 1 <<< "$out" > "$work/bits"
(echo 'o 4'; echo 's SATISFIABLE'; cat "$work/bits") > "$work/from"
call solve --from from --conflicts 1 text
ok 'a unit of effort' [ "$(head -n 1 <<< "$out")" = 'o 4' ]

# refused NAME LINE..: a RESULT of these lines; as `check` says, and nothing is written
refused() {
    local name=$1
    shift
    [ $# = 0 ] || lines from "$@"
    call check text from /dev/null
    said=$out
    lines proof before
    rm -f "$work/best"
    call solve --from from --proof proof --best best text
    expect "$name" 1 "$said" ''
    ok "$name: as check says" [ "${said%% *}" = NO ]
    ok "$name: the certificate of an earlier run stays" [ "$(cat "$work/proof")" = before ]
    ok "$name: nothing is kept" [ ! -e "$work/best" ]
}
lines text 'h 1 2 0' '3 -1 0' '4 -2 0'
: > "$work/from"
refused 'an empty file'
refused 'no result' 'x'
refused 'no end' 'o 3'
refused 'costs that rise' 'o 3' 'o 4' 's SATISFIABLE' 'v 01'
refused 'another cost' 'o 3' 's SATISFIABLE' 'v 01'
refused 'another cost, as an optimum' 'o 3' 's OPTIMUM FOUND' 'v 01'
refused 'a broken clause' 'o 0' 's SATISFIABLE' 'v 00'
refused 'too few bits' 'o 3' 's SATISFIABLE' 'v 1'
refused 'too many bits' 'o 3' 's SATISFIABLE' 'v 100'
lines from 's UNSATISFIABLE'
rm -f "$work/best"
call solve --from from --best best text
ok 'a result without a solution' [ "$status" = 30 -a "$(tail -n 1 <<< "$out")" = 'v 10' ]
lines bad 'h 1'
lines from 'o 3' 's SATISFIABLE' 'v 10'
call solve --from from bad
expect 'a faulty text' 2 '' 'error: line 1: NoZero'
lines proof before
call solve --from missing --proof proof text
expect 'a missing result' 3 '' 'error: Read missing'
ok 'a missing result: the certificate of an earlier run stays' [ "$(cat "$work/proof")" = before ]
call solve --from . text
expect 'a folder as result' 3 '' 'error: Read .'
call solve --from from missing
expect 'a missing text' 3 '' 'error: Read missing'
cp "$work/from" "$work/before"
for path in from ./from; do
    call solve --from from --proof $path text
    expect "the certificate over the result, $path" 3 '' 'error: ProofOutput'
    ok "the certificate over the result, $path: it stays" cmp -s "$work/from" "$work/before"
done

# A stopped run goes on: PATH is read, and then kept.
lines best 'o 4' 's SATISFIABLE' 'v 01'
call solve --from best --best best text
ok 'a stopped run goes on' [ "$status" = 30 -a "$(cat "$work/best")" = $'o 3\ns OPTIMUM FOUND\nv 10' ]
lines best 's UNKNOWN'
call solve --from best --best best text
ok 'a run that was stopped before its first solution goes on' [ "$status" = 30 -a "$(cat "$work/best")" = $'o 3\ns OPTIMUM FOUND\nv 10' ]
lines best 'o 3' 's SATISFIABLE' 'v 10'
call solve --from best --best best --conflicts 0 text
ok 'nothing is lost without effort' [ "$status" = 0 -a "$(cat "$work/best")" = $'o 3\ns SATISFIABLE\nv 10' ]
lines from 'o 4' 's SATISFIABLE' 'v 01'
lines best 'o 3' 's SATISFIABLE' 'v 10'
for files in 'from best' 'best from'; do
    read -r one other <<< "$files"
    cp "$work/$other" "$work/kept"
    call solve --from $one --best kept --conflicts 1 text
    ok "the cheaper of two, --from $one" [ "$(head -n 1 <<< "$out")" = 'o 3' -a "$(head -n 1 "$work/kept")" = 'o 3' ]
done
out=$(cd "$work" && timeout 60 "$wmax" solve --from <(cat best) <(cat text) 2>&1)
ok 'from pipes' [ "$?" = 30 -a "$(head -n 2 <<< "$out" | paste -sd ' ')" = 'o 3 s OPTIMUM FOUND' ]

# The values that are given are tried first: another solution of the same cost, another certificate. If the soft clause holds,
# seven pigeons have six holes.
awk 'BEGIN {
    for (p = 0; p < 7; p++) {
        clause = "h -43"
        for (h = 1; h <= 6; h++) clause = clause " " 6 * p + h
        print clause " 0"
        for (q = 0; q < p; q++) for (h = 1; h <= 6; h++) print "h -43 -" 6 * p + h " -" 6 * q + h " 0"
    }
    print "1 43 0"
}' > "$work/text"
for bit in 0 1; do
    printf 'o 1\ns SATISFIABLE\nv %s0\n' "$(printf '%42s' '' | tr ' ' $bit)" > "$work/from"
    call solve --from from --proof proof$bit text
    printf '%s\n' "$out" > "$work/result"
    call check text result proof$bit
    expect "values to begin with, all $bit" 0 YES ''
done
ok 'values to begin with: each are tried first' [ "$(cmp -s "$work/proof0" "$work/proof1"; echo $?)" = 1 ]

# Random instances, from a first solution: the cost of a plain run, and the certificate checks.
awk -v dir="$work" -v count=60 -f tests/program/random.awk > "$work/wanted"
wrong=0
profiles=(1 2 3)
while read -r number wanted; do
    [ "$wanted" = none ] && continue
    cp "$work/$number.wcnf" "$work/text"
    profile=${profiles[number % 3]}
    call solve --profile $profile --conflicts 1 text
    [ "$status" = 10 ] || call solve --profile $profile text
    printf '%s\n' "$out" > "$work/from"
    first=$(grep '^o' <<< "$out" | tail -n 1)
    call solve --profile $profile --from from --proof proof text
    printf '%s\n' "$out" > "$work/result"
    last=$(grep '^o' <<< "$out" | tail -n 1)
    begun=$(head -n 1 <<< "$out")
    call check --profile $profile text result proof
    if [ "$last $out" != "o $wanted YES" ] || [ "${begun#o }" -gt "${first#o }" ]; then
        wrong=$((wrong + 1))
        echo "instance $number in profile $profile: from $first, $begun, at last $last, $out"
    fi
done < "$work/wanted"
ok 'random instances' [ $wrong = 0 ]
totals
