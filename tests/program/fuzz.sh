#!/usr/bin/env bash
# Texts, results and certificates changed at random: `wmax check` says the same of whole files and of a certificate in
# pieces, and what it accepts is accepted by the plain checker of bench/ over the formula that `wmax encode` prints, RAT lines apart.
# Certificates of forms and cuts are given to that one as `wmax encode --lrat` writes them.
source "$(dirname "$0")/../lib"

compiles -O1 -o "$work/fuzz" tests/program/fuzz.c
compiles -O2 -o "$work/plain" bench/lrat_check.c

# Certificates with no RAT lines, which the plain checker reads.
names='bigw maxcut packages par40 timetable vcover none opposite older'
for name in bigw maxcut packages par40 timetable vcover; do
    cp "examples/$name.wcnf" "examples/$name.result" "examples/$name.lrat" "$work"
done
lines none.wcnf 'h 1 2 0' 'h -1 2 0' 'h 1 -2 0' 'h -1 -2 0'
lines none.result 's UNSATISFIABLE'
lines none.lrat '5 2 0 1 2 0' '6 0 5 3 4 0'
lines opposite.wcnf 'h 1 -1 0' '2 1 1 0' '3 -1 0'
lines opposite.result 'o 2' 's OPTIMUM FOUND' 'v 0'
lines opposite.lrat '12 -2 0 11 5 10 9 0' '13 0 12 1 2 11 4 0'
lines older.wcnf 'c x' 'p wcnf 2 3 10' '10 1 2 0' '3 -1 0' '4 -2 0'
lines older.result 'o 3' 's OPTIMUM FOUND' 'v 10'
lines older.lrat '6 0 5 4 2 3 1 0'
for name in $names; do
    call check "$name.wcnf" "$name.result" "$name.lrat"
    expect "$name as it is" 0 YES ''
done
for name in maxcut packages vcover older; do
    cp "$work/$name.wcnf" "$work/$name-3.wcnf"
    call solve --profile 3 --proof "$name-3.lrat" "$name-3.wcnf"
    printf '%s\n' "$out" > "$work/$name-3.result"
    call check --profile 3 "$name-3.wcnf" "$name-3.result" "$name-3.lrat"
    expect "$name as it is, profile 3" 0 YES ''
    names="$names $name-3"
done

changed() { # SEED..: 4,000 changes for each seed, side by side
    local seed said
    for seed in "$@"; do
        # shellcheck disable=SC2086
        "$work/fuzz" "$wmax" "$work/plain" "$work" "$seed" 4000 $names > "$work/said.$seed" 2>&1 &
    done
    wait
    for seed in "$@"; do
        said=$(tail -n 1 "$work/said.$seed")
        head -n -1 "$work/said.$seed" | head -n 20
        ok "seed $seed: $said" test "$(cut -d ' ' -f 1,2,5 <<< "$said")" = "$seed 4000 0"
    done
}

changed 1 2 3
totals
