#!/usr/bin/env bash
# `wmax solve --profile 3`: the optimum, with a certificate of forms and cuts, which is written while it searches, and each beginning
# of which proves a lower bound.
source "$(dirname "$0")/../lib"

# lower: the lower bound that the certificate proves by itself
lower() {
    call lower text proof
    sed -n 's/^at least //p' <<< "$out"
}

# cost: of the last `o` line of the result
cost() {
    sed -n 's/^o //p' "$work/result" | tail -n 1
}

# solved NAME STATUS RESULT WORD..: what solving the text prints, of the `o` lines the last one; the certificate checks
solved() {
    local name=$1 wanted=$2 result=$3
    shift 3
    rm -f "$work/proof"
    call solve --profile 3 --proof proof "$@" text
    printf '%s\n' "$out" > "$work/result"
    out=$(grep '^o ' <<< "$out" | tail -n 1; grep -v '^o ' <<< "$out")
    expect "$name" "$wanted" "$result" "$told"
    case $wanted in
        20 | 30)
            call check --profile 3 text result proof
            expect "$name: certificate" 0 YES ''
            call check --profile any text result proof
            expect "$name: certificate in any profile" 0 YES ''
            ;;
        *)
            call lower text proof
            ok "$name: a beginning of a certificate: $out $err" [ "$status" = 0 -a "${out% *}" = 'at least' ]
            ;;
    esac
}

told='warning: no clause was read'
: > "$work/text"
solved 'an empty text' 30 $'o 0\ns OPTIMUM FOUND\nv'
printf 'c h 1 0\n\n' > "$work/text"
solved 'comments alone' 30 $'o 0\ns OPTIMUM FOUND\nv'
told=
lines text 'h 0'
solved 'an empty hard clause, without effort' 20 's UNSATISFIABLE' --conflicts 0
lines text '5 0'
solved 'an empty soft clause' 30 $'o 5\ns OPTIMUM FOUND\nv'
lines text 'h 1 2 0' '3 -1 0' '4 -2 0'
solved 'one of two' 30 $'o 3\ns OPTIMUM FOUND\nv 10'
lines text '4611686018427387903 1 0'
solved 'the greatest weight' 30 $'o 0\ns OPTIMUM FOUND\nv 1'
lines text 'h 1 -1 0' '2 1 1 0' '3 -1 0'
solved 'a clause with complementary literals, and a repeat' 30 $'o 2\ns OPTIMUM FOUND\nv 0'
printf 'c x\r\n\r\nh -1 0\r\n7 1 0' > "$work/text"
solved 'CR LF, and a last line without LF' 30 $'o 7\ns OPTIMUM FOUND\nv 0'
lines text 'p wcnf 2 3 10' '10 1 2 0' '3 -1 0' '4 -2 0'
solved 'the older form' 30 $'o 3\ns OPTIMUM FOUND\nv 10'
lines text 'h 1 2 0' 'h -1 2 0' 'h 1 -2 0' 'h -1 -2 0'
solved 'four clauses that no assignment satisfies' 20 's UNSATISFIABLE'
lines text 'h 1 2 0'
solved 'no effort' 0 's UNKNOWN' --conflicts 0
lines text 'h 1 0'
solved 'one solution' 30 $'o 0\ns OPTIMUM FOUND\nv 1'

# From a solution, which stands in the first `o` line if the search finds none around it.
lines text 'h 1 2 0' '3 -1 0' '4 -2 0'
lines from 'o 3' 's SATISFIABLE' 'v 10'
solved 'from an optimum' 30 $'o 3\ns OPTIMUM FOUND\nv 10' --from from
lines from 'o 2' 's SATISFIABLE' 'v 10'
call solve --profile 3 --from from text
expect 'from a wrong result' 1 'NO CostWrong 1' ''

# The optimum of the examples, with less effort a solution and a lower bound, and what is kept.
for path in examples/{roster,bothsigns,packages,timetable,vcover}.wcnf tests/program/cuts/package_choice_60_1.wcnf; do
    name=$(basename "$path" .wcnf)
    cp "$path" "$work/text"
    optimum=$(sed -n 's/^o //p' "${path%.wcnf}.result" | tail -n 1)
    call solve --profile 3 --conflicts 200000 --proof proof --best best text
    printf '%s\n' "$out" > "$work/result"
    ok "$name: $status $err" [ "$status" = 30 -a -z "$err" ]
    ok "$name: the optimum $optimum" [ "$(grep '^o ' "$work/result" | tail -n 1)" = "o $optimum" ]
    call check --profile 3 text result proof
    expect "$name: certificate" 0 YES ''
    ok "$name: the lower bound" [ "$(lower)" = "$optimum" ]
    ok "$name: what is kept" [ "$(grep -v '^o ' "$work/best")" = "$(grep -v '^o ' "$work/result")" ]
    rm "$work/best"
    call solve --profile 3 --conflicts 3 --proof proof text
    ok "$name, little effort: $status $err" [ "$status" = 10 -o "$status" = 30 ]
    bound=$(lower)
    ok "$name, little effort: the lower bound $bound" [ -n "$bound" -a "${bound:-0}" -le "$optimum" ]
done

# A search that does not end: what is found is right, and so is each beginning of its certificate.
awk -v family=set_cover -v size=300 -v seed=1 -f bench/maxsat.awk > "$work/text"
call solve --profile 3 --time-limit 1 --proof proof --best best text
printf '%s\n' "$out" > "$work/result"
ok 'the time runs out' [ "$status$err" = 10 ]
call explain text result
ok 'the time runs out: v is right' [ "$status" = 0 ]
bound=$(lower)
ok 'the time runs out: a lower bound' [ -n "$bound" ]
call explain text result proof
ok 'the time runs out: why' [ "$status" = 0 ]
head -c $(($(wc -c < "$work/proof") / 2)) "$work/proof" > "$work/half"
call lower text half
ok "half of the certificate: $out" [ "$status" = 0 -a "${out#at least }" -le "$bound" ]
call solve --profile 3 --time-limit 1 --proof proof --best best --progress text
ok 'it goes on' [ "$status" = 10 -a "$(grep '^o ' <<< "$out" | head -n 1 | cut -c 3-)" -le "$(sed -n 's/^o //p' "$work/result" | tail -n 1)" ]
ok 'it tells how far it is' grep -q ' s, cost ' "$work/.err"
ok 'it does not write the certificate last' [ "$(grep -c 'writing the certificate' "$work/.err")" = 0 ]

# Where the certificate cannot be written there is no `s` line.
lines text 'h 1 2 0' '3 -1 0' '4 -2 0'
mkdir "$work/folder"
for path in folder folder/none/proof text; do
    call solve --profile 3 --proof $path text
    expect "a certificate that cannot be written, $path" 3 '' 'error: ProofOutput'
done
if [ -c /dev/full ]; then
    call solve --profile 3 --proof /dev/full text
    ok "a full certificate: $status $err" [ "$status $err" = '3 error: ProofOutput' -a -z "$(grep -v '^o ' <<< "$out")" ]
    err=$(cd "$work" && "$wmax" solve --profile 3 --proof proof text 2>&1 > /dev/full)
    ok "a full output: $err" [ "$err" = 'error: Output' ]
fi

# Instances of several kinds: the certificate gives the optimum as a lower bound, and a second run writes the same one.
for family in package_choice:40 diagnosis:60 set_cover:20 vertex_cover:20 upgrade:60 test_selection:60 broken_gates:60; do
    name=${family%:*}
    awk -v family="$name" -v size="${family#*:}" -v seed=1 -f bench/maxsat.awk > "$work/text"
    call solve --profile 3 --proof proof text
    printf '%s\n' "$out" > "$work/result"
    ok "$name: an optimum: $status $err" [ "$status$err" = 30 ]
    call check --profile 3 text result proof
    expect "$name: it checks" 0 YES ''
    ok "$name: the lower bound" [ "$(lower)" = "$(cost)" ]
    mv "$work/proof" "$work/first"
    call solve --profile 3 --proof proof text
    ok "$name: a second run is the same" cmp -s "$work/proof" "$work/first"
done

# Little effort: each unit more makes the solution no dearer, and what is proved is right.
awk -v family=package_choice -v size=40 -v seed=1 -f bench/maxsat.awk > "$work/text"
call solve --profile 3 text
optimum=$(grep '^o ' <<< "$out" | tail -n 1 | cut -c 3-)
ok 'all of the effort: an optimum' [ "$status" = 30 ]
before=4611686018427387904
rm -f "$work/best"
for conflicts in 0 1 2 3 5 8 13 21 34 55 89 144 1000; do
    call solve --profile 3 --conflicts "$conflicts" --proof proof --best best text
    printf '%s\n' "$out" > "$work/result"
    bound=$(lower)
    ok "$conflicts units: a lower bound, $bound" [ -n "$bound" -a "${bound:-0}" -le "$optimum" ]
    if [ "$status" = 0 ]; then
        ok "$conflicts units: nothing" [ "$out" = 's UNKNOWN' -a "$before" = 4611686018427387904 ]
    else
        ok "$conflicts units: a solution, no dearer than with fewer" [ "$(cost)" -le "$before" -a "$(cost)" -ge "$optimum" ]
        ok "$conflicts units: it is kept" [ "$(tail -n 1 "$work/best")" = "$(tail -n 1 "$work/result")" ]
        before=$(cost)
        [ "$status" = 10 ] || ok "$conflicts units: the optimum" [ "$status $before" = "30 $optimum" ]
        call explain text result
        ok "$conflicts units: it costs that" [ "$status" = 0 ]
    fi
    rm -f "$work/best"
done

# Killed at forty moments: the certificate is the beginning of one, which proves a lower bound.
awk -v family=package_choice -v size=120 -v seed=1 -f bench/maxsat.awk > "$work/text"
right=0
for moment in $(seq 1 40); do
    rm -f "$work/proof"
    (cd "$work" && exec "$wmax" solve --profile 3 --proof proof text > /dev/null 2>&1) &
    sleep "0.0$((moment / 10))$((moment % 10))"
    kill -KILL $! 2> /dev/null
    wait $! 2> /dev/null
    if [ ! -e "$work/proof" ] || [ -n "$(lower)" ]; then right=$((right + 1)); fi
done
ok 'killed at forty moments' [ $right = 40 ]

# killed_at COUNT: killed as soon as so many lines of --progress have told a bound. `tenths` is what
# the last of them said; 0 where there were fewer.
killed_at() {
    local lines left=$1
    rm -f "$work/proof"
    exec {lines}< <(cd "$work" && exec "$wmax" solve --profile 3 --proof proof --progress text 2>&1 > /dev/null)
    while [ "$left" != 0 ] && read -r -u "$lines" line; do
        [[ $line =~ ', at least '([0-9]+)(\.([0-9]))? ]] || continue
        tenths=$((10#${BASH_REMATCH[1]} * 10 + ${BASH_REMATCH[3]:-0}))
        left=$((left - 1))
    done
    kill -KILL $! 2> /dev/null
    wait $! 2> /dev/null
    exec {lines}<&-
    [ "$left" = 0 ] || tenths=0
}

# What --progress has told is proved by what stands in PATH then.
for instance in 'test_selection 300' 'roster 10' 'upgrade 600'; do
    awk -v family="${instance% *}" -v size="${instance#* }" -v seed=1 -f bench/maxsat.awk > "$work/text"
    told=0
    right=0
    for count in 1 2 3 4 5; do
        killed_at $count
        [ "$tenths" = 0 ] || told=$((told + 1))
        bound=$(lower)
        [ $((${bound:--1} * 10)) -ge "$tenths" ] && right=$((right + 1))
    done
    ok "$instance: killed once bounds were told, $right of $told" [ $right = 5 -a $told -gt 2 ]
done

# Each lower bound that a search tells is proved by what stands up to it in the certificate.
awk -v family=set_cover -v size=300 -v seed=1 -f bench/maxsat.awk > "$work/text"
call solve --profile 3 --conflicts 500 --proof proof text
ok 'a search that does not end' [ "$status" = 10 ]
count=0
before=0
while read -r line bound; do
    head -n "$line" "$work/proof" > "$work/beginning"
    call lower text beginning
    expect "up to line $line" 0 "at least $bound" ''
    ok "line $line: more than before" [ "$bound" -gt "$before" ]
    before=$bound
    count=$((count + 1))
done < <(grep -n '^bound ' "$work/proof" | tr ':' ' ' | cut -d ' ' -f 1,3 | head -n 20)
ok "it tells lower bounds: $count" [ $count -gt 0 ]

# Random instances, against all assignments: the optimum, and what the certificate proves by itself, also after little effort.
awk -v dir="$work" -v count=100 -f tests/program/random.awk > "$work/optima"
wrong=0
reached=0
while read -r number wanted; do
    call solve --profile 3 --proof proof "$number.wcnf"
    printf '%s\n' "$out" > "$work/result"
    case $wanted in
        none) got=$([ "$status $out" = '20 s UNSATISFIABLE' ] && echo none) proved='no solution' ;;
        *) got=$([ "$status" = 30 ] && cost) proved="at least $wanted" ;;
    esac
    call check --profile 3 "$number.wcnf" result proof
    said=$out$err
    call lower "$number.wcnf" proof
    if [ "$got, $said, $out$err" != "$wanted, YES, $proved" ]; then
        wrong=$((wrong + 1))
        echo "$number.wcnf: wanted $wanted, got $got, $said, $out $err"
    fi
    call solve --profile 3 --conflicts $((number % 9)) --proof proof "$number.wcnf"
    call lower "$number.wcnf" proof
    [ "$out" != "$proved" ] || reached=$((reached + 1))
    case "$wanted $out" in
        'none no solution' | 'none at least '*) continue ;;
        *' at least '*) [ "${out#at least }" -gt "$wanted" ] || continue ;;
    esac
    wrong=$((wrong + 1))
    echo "$number.wcnf, little effort: $out $err of $wanted"
done < "$work/optima"
ok 'random instances' [ $wrong = 0 ]
ok "little effort proves the optimum of some: $reached" [ $reached -gt 20 ]

totals
