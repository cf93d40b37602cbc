#!/usr/bin/env bash
# `wmax encode` from the file to the printed formula.
source "$(dirname "$0")/../lib"

formula() { # NAME COST LINE..: the formula of text
    local name=$1 cost=$2
    shift 2
    call encode text "$cost"
    expect "$name" 0 "$(printf '%s\n' "$@")" ""
}

: > "$work/text"
formula 'an empty text' 0 'p cnf 0 1' '0'
lines text '5 0'
formula 'an empty soft clause' 5 'p cnf 1 2' '1 0' '-1 0'
lines text '1 1 0'
formula 'a bound above all weights' 5 'p cnf 2 1' '1 2 0'
lines text 'h 1 2 0' '3 -1 0' '4 -2 0'
formula 'no cells' 3 'p cnf 4 5' '1 2 0' '-1 3 0' '-2 4 0' '-4 0' '-3 0'
lines text '3 1 0' '1 1 0'
formula 'two half adders' 1 'p cnf 7 19' '1 2 0' '1 3 0' '2 3 -4 0' '2 -3 4 0' '-2 3 4 0' '-2 -3 -4 0' '2 -5 0' '3 -5 0' \
    '-2 -3 5 0' '2 5 -6 0' '2 -5 6 0' '-2 5 6 0' '-2 -5 -6 0' '2 -7 0' '5 -7 0' '-2 -5 7 0' '-7 0' '-6 0' '-4 0'
lines text 'h 1 -1 0' '2 1 1 0' '3 -1 0'
formula 'opposite and repeated literals' 2 'p cnf 5 11' '1 2 0' '-1 3 0' '2 3 -4 0' '2 -3 4 0' '-2 3 4 0' '-2 -3 -4 0' \
    '2 -5 0' '3 -5 0' '-2 -3 5 0' '-5 0' '-4 0'
lines text '1 1 0' '1 2 0' '1 3 0'
formula 'a full adder' 2 'p cnf 8 18' '1 4 0' '2 5 0' '3 6 0' '4 5 6 -7 0' '4 5 -6 7 0' '4 -5 6 7 0' '4 -5 -6 -7 0' \
    '-4 5 6 7 0' '-4 5 -6 -7 0' '-4 -5 6 -7 0' '-4 -5 -6 7 0' '4 5 -8 0' '4 6 -8 0' '5 6 -8 0' '-4 -5 8 0' '-4 -6 8 0' \
    '-5 -6 8 0' '-8 0'

formula_as() { # PROFILE NAME COST LINE..: the formula of text in this profile
    local profile=$1 name=$2 cost=$3
    shift 3
    call encode --profile "$profile" text "$cost"
    expect "$name, profile $profile" 0 "$(printf '%s\n' "$@")" ""
}
lines text 'h 1 2 0' '3 -1 0' '4 -2 0'
formula_as 2 'no cells' 3 'p cnf 2 3' '1 2 0' '-2 0' '-1 0'
lines text '3 1 0' '1 1 0'
formula_as 2 'one literal in two columns' 1 'p cnf 5 15' '-1 -2 0' '1 -2 0' '-1 -3 0' '-1 -3 0' '1 3 0' '-1 3 -4 0' '-1 -3 4 0' \
    '1 3 4 0' '1 -3 -4 0' '-1 -5 0' '3 -5 0' '1 -3 5 0' '-5 0' '-4 0' '-2 0'

# Profile 3: the hard clauses, and the soft ones that are no unit, each with its relaxation variable last. COST says nothing.
: > "$work/text"
formula_as 3 'an empty text' 0 'p cnf 0 0'
lines text '5 0'
formula_as 3 'an empty soft clause' 5 'p cnf 1 1' '1 0'
lines text 'h 1 2 0' '3 -1 0' '4 -2 0'
for cost in 0 3 4611686018427387903; do formula_as 3 "unit soft clauses, cost $cost" $cost 'p cnf 2 1' '1 2 0'; done
lines text '3 1 0' '2 1 2 3 0'
formula_as 3 'a soft clause that is no unit' 1 'p cnf 4 1' '1 2 3 4 0'
lines text '5 1 -1 0' '2 1 2 0' '3 -1 -2 0' '4 1 0' '4 -1 0' 'h 1 2 0'
formula_as 3 'opposite literals, whose variable stays' 4 'p cnf 5 3' '1 2 0' '1 2 4 0' '-1 -2 5 0'
lines text 'h 1 -1 0' 'h 2 2 0' '2 1 1 0' '3 -2 1 -2 0' '2 0'
formula_as 3 'repeated literals' 0 'p cnf 4 3' '2 0' '-2 1 3 0' '4 0'
lines text 'h 0'
formula_as 3 'an empty hard clause' 0 'p cnf 0 1' '0'
lines text 'p wcnf 3 2 10' '10 1 2 0' '3 -1 2 0'
formula_as 3 'the older form' 1 'p cnf 4 2' '1 2 0' '-1 2 4 0'

# With --proof, in profile 3 alone: `plain` has what it prints.
lines text 'h 1 2 0' '3 -1 0' '4 -2 0'
lines proof 'form 1 3 1 0' 'cut 0'
for profile in 1 2; do
    call encode --profile $profile --proof proof text 3
    expect "a certificate in profile $profile" 2 '' 'error: encode takes --proof only with --profile 3'
done
call encode --proof proof text 3
expect 'a certificate in the profile that is meant without a word' 2 '' 'error: encode takes --proof only with --profile 3'
call encode --profile 3 --proof proof text 3
expect 'a certificate in profile 3' 0 "$(printf '%s\n' 'p cnf 2 2' '1 2 0' '0')" ''
call encode --profile 3 --proof missing text 3
expect 'a missing certificate' 3 '' 'error: Read missing'
call encode --profile 3 --proof . text 3
expect 'a certificate that is a folder' 2 '' 'error: encode --profile 3 needs a regular file as CERTIFICATE'
lines faulty '0 1 0'
call encode --profile 3 --proof missing faulty 3
expect 'a missing certificate of a faulty instance' 3 '' 'error: Read missing'
lines proof 'form'
call encode --profile 3 --proof proof text 3
expect 'a faulty certificate' 2 '' 'error: line 1: LineForm'
call encode --profile 3 --proof proof faulty 3
expect 'faults of both' 2 '' 'error: line 1: Weight'

fault() { # NAME TEXT MESSAGE
    printf '%b' "$2" > "$work/text"
    call encode text 1
    expect "$1" 2 '' "error: $3"
}
fault 'the sum of the weights' '4611686018427387903 1 0\n1 -1 0\n' 'line 2: WeightSum'
fault 'weight 0' '0 1 0\n' 'line 1: Weight'
fault 'no 0' 'h 1 2\n' 'line 1: NoZero'
fault 'a leading zero' 'h 01 0\n' 'line 1: Literal'
fault 'the older form, a clause too few' 'p wcnf 1 1 5\n' 'line 1: Count'
fault 'a first token' '-3 1 0' 'line 1: FirstToken'
fault 'a token after 0' 'h 1 0 2' 'line 1: AfterZero'
fault 'a great variable' 'h 4194305 0' 'line 1: Variable'
fault 'a carriage return at the end' 'h 1 0\r' 'line 1: Literal'

lines text 'h 1 0'
call encode missing 1
expect 'a missing instance' 3 '' 'error: Read missing'
call encode text 4611686018427387904
ok 'a cost of 2^62' test "$status" = 2 -a -z "$out" -a -n "$err"
call encode text 4611686018427387903
expect 'the greatest cost' 0 "$(printf 'p cnf 1 1\n1 0')" ''
call encode text -1
ok 'a negative cost' test "$status" = 2 -a -z "$out" -a -n "$err"
call encode text
ok 'no cost' test "$status" = 2 -a -z "$out" -a -n "$err"
if [ -c /dev/full ]; then
    err=$(cd "$work" && "$wmax" encode text 1 2>&1 > /dev/full)
    status=$?
    ok 'an output that is full' test "$status" = 3 -a "$err" = 'error: Output'
fi

# A stock SAT solver finds the formula satisfiable exactly above the optimum.
solver=
for name in cadical minisat picosat glucose kissat; do
    command -v $name > /dev/null && solver=$name && break
done
if [ -z "$solver" ]; then
    echo 'no SAT solver is installed: its agreement with the formulas was not tried'
else
    for result in examples/*.result; do
        name=${result%.result}
        cost=$(sed -nE 's/^o ([0-9]+)$/\1/p' "$result" | tail -n 1)
        [ -n "$cost" ] || continue
        "$wmax" encode "$name.wcnf" "$cost" > "$work/below.cnf"
        "$wmax" encode "$name.wcnf" $((cost + 1)) > "$work/at.cnf"
        $solver "$work/below.cnf" > /dev/null 2>&1
        ok "$name: nothing is cheaper" test $? = 20
        $solver "$work/at.cnf" > /dev/null 2>&1
        ok "$name: the optimum is a solution" test $? = 10
    done
fi
totals
