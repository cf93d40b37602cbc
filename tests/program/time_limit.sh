#!/usr/bin/env bash
# `--time-limit S`: an answer before its end is that without it; after its end what was found is right. Nothing here depends on
# how fast the machine is.
source "$(dirname "$0")/../lib"

# The end comes after the answer: the same bytes.
lines text 'h 1 2 0' '3 -1 0' '4 -2 0' '2 1 3 0' '5 -3 0'
lines none 'h 1 0' 'h -1 0'
for profile in 1 2 3; do
    for name in text none; do
        call solve --profile $profile --proof plain $name
        wanted=("$status" "$out" "$err")
        for limit in 1000 1e6 2000.5 inf; do
            call solve --profile $profile --time-limit $limit --proof proof $name
            expect "profile $profile, $name, $limit" "${wanted[@]}"
            ok "profile $profile, $name, $limit: the certificate" cmp -s "$work/proof" "$work/plain"
        done
    done
done

# Sets that cover much, whose optimum is far away, and pigeons that have no holes.
awk -v family=set_cover -v size=300 -v seed=1 -f bench/maxsat.awk > "$work/hard"
python3 - << 'PY' > "$work/pigeons"
import itertools
for pigeon in range(13):
    print("h", *(12 * pigeon + hole + 1 for hole in range(12)), 0)
for (one, other), hole in itertools.product(itertools.combinations(range(13), 2), range(12)):
    print("h", -(12 * one + hole + 1), -(12 * other + hole + 1), 0)
PY

ends() { # NAME WORD..: the search ends with a solution, and no certificate, or in profile 3 the beginning of one
    local name=$1
    shift
    echo earlier > "$work/proof"
    call solve "$@" --proof proof hard
    ok "$name: status" [ "$status" = 10 -a -z "$err" ]
    ok "$name: s" [ "$(grep -c '^s ' <<< "$out") $(tail -n 2 <<< "$out" | head -n 1)" = '1 s SATISFIABLE' ]
    printf '%s\n' "$out" > "$work/result"
    call explain hard result
    ok "$name: v is right" [ "$status" = 0 ]
    if [[ $* = *'--profile 3'* ]]; then
        call lower hard proof
        ok "$name: a lower bound: $out" [ "$status ${out% *}" = '0 at least' ]
    else
        ok "$name: no certificate" [ ! -s "$work/proof" ]
    fi
}
for profile in 1 2 3; do
    ends "profile $profile" --profile $profile --time-limit 0.7
done
ends 'with less effort than time' --time-limit 1000 --conflicts 50
cp "$work/result" "$work/worse"
ends 'from a solution' --time-limit .3 --from worse
call solve --time-limit 1e-9 --proof proof pigeons
expect 'at the first look' 0 's UNKNOWN' ''
call solve --time-limit 0.5 pigeons
expect 'no solution in time' 0 's UNKNOWN' ''
call solve --time-limit 0.5 --profile 2 --progress pigeons
ok 'with progress' [ "$status $out $(grep -vc ' s, no solution yet, ' <<< "$err")" = '0 s UNKNOWN 0' ]

# What is kept is kept.
rm -f "$work/best"
for profile in 1 3; do
    ends "kept, profile $profile" --profile $profile --time-limit 1.2 --best best
    ok "kept, profile $profile: the best solution" [ "$(tail -n 2 "$work/best")" = "$(tail -n 2 "$work/result")" ]
    ok "kept, profile $profile: nothing beside" [ ! -e "$work/best.part" ]
done

# What is no time.
echo kept > "$work/proof"
for limit in 0 0.0 -0 nan; do
    call solve --time-limit=$limit --proof proof hard
    expect "the time $limit" 2 '' 'error: --time-limit takes a number of seconds above 0'
done
for limit in '' abc 5s 1,5; do
    call solve --time-limit="$limit" --proof proof hard
    ok "the time '$limit'" [ "$status" = 2 -a -z "$out" -a -n "$(grep -e --time-limit <<< "$err")" ]
done
call solve --time-limit=-1 --proof proof hard
expect 'a time below 0' 2 '' 'error: --time-limit takes a number of seconds above 0'
ok 'the certificate was not emptied' [ "$(cat "$work/proof")" = kept ]
for command in check lower explain encode; do
    call $command --time-limit 1 text text text
    ok "$command has no such option" [ "$status" = 2 ]
done

totals
