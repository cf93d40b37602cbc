#!/usr/bin/env bash
# `wmax encode` on random instances in profiles 1 and 2, against the least cost that a search over all assignments finds: the
# formula is unsatisfiable at that cost and satisfiable above it. `wmax solve` says so, of its clauses as hard ones.
source "$(dirname "$0")/../lib"

answer() { # COST: the status line of solving the formula
    "$wmax" encode --profile $profile "$work/$number.wcnf" "$1" | sed -n '1d; s/^/h /p' > "$work/formula"
    timeout 60 "$wmax" solve "$work/formula" < /dev/null | grep '^s '
}

awk -v dir="$work" -v count=100 -f tests/program/random.awk > "$work/wanted"
while read -r number wanted; do
    for profile in 1 2; do
        if [ "$wanted" = none ]; then
            ok "instance $number, profile $profile: no solution" [ "$(answer 4611686018427387903)" = 's UNSATISFIABLE' ]
        else
            ok "instance $number, profile $profile: nothing is cheaper" [ "$(answer "$wanted")" = 's UNSATISFIABLE' ]
            ok "instance $number, profile $profile: the optimum" [ "$(answer $((wanted + 1)))" = 's OPTIMUM FOUND' ]
        fi
    done
done < "$work/wanted"
totals
