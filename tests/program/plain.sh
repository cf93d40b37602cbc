#!/usr/bin/env bash
# `wmax encode --profile 3 --proof`: certificates of forms and cuts for checkers from elsewhere.
source "$(dirname "$0")/../lib"

# refutes NAME: what --lrat wrote refutes the formula that was printed, by `check` over its clauses as hard ones
refutes() {
    sed '1d; s/^/h /' "$work/formula" > "$work/hard"
    lines refuted 's UNSATISFIABLE'
    call check hard refuted plain
    expect "$1: the plain certificate refutes the formula" 0 YES ''
}

# plain NAME COST: of an instance and its certificate, with both outputs
plain() {
    rm -f "$work/plain"
    call encode --profile 3 "$1.wcnf" "$2" --proof "$1.lrat" --lrat plain
    printf '%s\n' "$out" > "$work/formula"
    ok "$1: as many clauses as the first line says" \
        test "$status" = 0 -a "$(head -n 1 "$work/formula" | cut -d ' ' -f 4)" = "$(grep -vc ^p "$work/formula")"
    refutes "$1"
}

# tea or coffee: tea is kept
lines tea.wcnf 'h 1 2 0' '3 -1 0' '4 -2 0'
lines tea.lrat 'form 1 3 1 0' 'cut 0'
plain tea 3
ok 'tea: the formula' test "$(cat "$work/formula")" = $'p cnf 2 2\n1 2 0\n0'
ok 'tea: the plain certificate' test "$(cat "$work/plain")" = '4 0 2 0'
# the same as a search finds it, with a deletion of what a line made, and of an addition
lines search.wcnf 'h 1 2 0' '3 -1 0' '4 -2 0'
lines search.lrat 'form 1 0' 'cut -2 0' '5 1 0 2 1 0' '5 d 2 1 0' '' 'form 1 3 5 0' '9 d 5 0' 'cut 0'
plain search 3
ok 'search: the formula' test "$(cat "$work/formula")" = $'p cnf 2 3\n1 2 0\n-2 0\n0'
ok 'search: the plain certificate' test "$(cat "$work/plain")" = $'7 1 0 2 1 0\n7 d 2 1 0\n11 d 7 0\n9 0 3 0'
# counts: more variables, and additions behind all clauses
lines big.wcnf 'h 1 2 0' '1152921504606846975 -1 0' '1152921504606846974 -2 0' '7 1 -2 0'
lines big.lrat '3 1 2 0 1 0' 'count 2 1 2 0' '8 4 0 4 5 3 0' 'form 1 1152921504606846974 -1 0' 'cut -3 0' 'cut -1 0' \
    '11 2 0 10 1 0' '12 0 11 10 9 2 0'
plain big 1152921504606846975
ok 'big: the formula' test "$(cat "$work/formula")" = \
    $'p cnf 5 8\n1 2 0\n1 -2 3 0\n-2 4 0\n-1 4 0\n-1 -2 5 0\n-5 4 0\n-3 0\n-1 0'
ok 'big: the plain certificate' test "$(cat "$work/plain")" = \
    $'9 1 2 0 1 0\n14 4 0 3 4 9 0\n17 2 0 8 1 0\n18 0 17 8 7 2 0'
# nothing but additions
lines unsat.wcnf 'h 1 2 0' 'h -1 2 0' 'h 1 -2 0' 'h -1 -2 0' '3 1 0'
lines unsat.lrat '5 -1 0 2 4 0' '6 2 0 5 1 0' '7 0 5 6 3 0'
plain unsat 4611686018427387903
ok 'unsat: the same lines' cmp -s "$work/unsat.lrat" "$work/plain"
# certificates of a search
cp tests/program/cuts/network_20_1.* "$work"
plain network_20_1 "$(sed -n 's/^o //p' "$work/network_20_1.result" | tail -n 1)"

# without --lrat the formula alone; what is open may have any end
call encode --profile 3 tea.wcnf 3 --proof tea.lrat
expect 'the formula alone' 0 $'p cnf 2 2\n1 2 0\n0' ''
lines open.lrat 'form 1 0' 'cut -2 0'
call encode --profile 3 tea.wcnf 3 --proof open.lrat --lrat plain
expect 'an open certificate' 0 $'p cnf 2 2\n1 2 0\n-2 0' ''
ok 'an open certificate: no line' test ! -s "$work/plain"
: > "$work/none.lrat"
call encode --profile 3 tea.wcnf 3 --proof none.lrat --lrat plain
expect 'an empty certificate' 0 $'p cnf 2 1\n1 2 0' ''
printf 'form 1 3 1 0\r\n\r\n cut\t0' > "$work/spaced.lrat"
call encode --profile 3 tea.wcnf 3 --proof spaced.lrat --lrat plain
expect 'blanks, and no last line feed' 0 $'p cnf 2 2\n1 2 0\n0' ''

# faults: nothing is printed, and the file of --lrat stays
echo kept > "$work/plain"
call encode --profile 3 tea.wcnf 4 --proof tea.lrat --lrat plain
expect 'a cut that is not worth the cost' 2 '' 'error: line 2: CutWorth'
lines wrong.lrat 'form 1 0' 'cut -2 0' '2 1 0 2 1 0'
call encode --profile 3 tea.wcnf 3 --proof wrong.lrat --lrat plain
expect 'an id that is taken' 2 '' 'error: line 3: IdOrder'
lines wrong.lrat 'form 1 3 1 0' 'cut 0' 'cut 0'
call encode --profile 3 tea.wcnf 3 --proof wrong.lrat --lrat plain
expect 'a line behind the empty clause' 2 '' 'error: line 3: TrailingLine'
call encode --profile 3 tea.wcnf 3 --proof missing --lrat plain
expect 'a missing certificate' 3 '' 'error: Read missing'
lines faulty.wcnf '0 1 0'
call encode --profile 3 faulty.wcnf 3 --proof tea.lrat --lrat plain
expect 'a faulty instance' 2 '' 'error: line 1: Weight'
ok 'the file of --lrat stays' test "$(cat "$work/plain")" = kept
mkfifo "$work/pipe"
cat "$work/tea.lrat" > "$work/pipe" &
call encode --profile 3 tea.wcnf 3 --proof pipe
expect 'a pipe' 2 '' 'error: encode --profile 3 needs a regular file as CERTIFICATE'
wait
for other in tea.wcnf tea.lrat; do
    call encode --profile 3 tea.wcnf 3 --proof tea.lrat --lrat $other
    expect "--lrat names $other" 3 '' 'error: ProofOutput'
done
call encode --profile 3 tea.wcnf 3 --proof tea.lrat --lrat missing/plain
expect '--lrat in a folder that is not there' 3 '' 'error: ProofOutput'
for words in '--profile 3' '--profile 2 --proof tea.lrat' '--profile 1'; do
    call encode $words tea.wcnf 3 --lrat plain
    expect "--lrat with $words" 2 '' 'error: encode takes --lrat only with --profile 3 and --proof'
done
totals
