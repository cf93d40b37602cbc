#!/usr/bin/env bash
# `wmax check` from the files to the printed verdict.
source "$(dirname "$0")/../lib"

verdict() { # NAME WANTED: of text, result and proof
    call check text result proof
    case $2 in YES) expect "$1" 0 "$2" "" ;; *) expect "$1" 1 "$2" "" ;; esac
}

# Four clauses that no assignment satisfies.
lines text 'h 1 2 0' 'h -1 2 0' 'h 1 -2 0' 'h -1 -2 0'
lines result 's UNSATISFIABLE'
lines proof '5 2 0 1 2 0' '6 0 5 3 4 0'
verdict 'two RUP lines' YES
lines proof '5 3 1 0 0' '6 -3 2 0 -5 1 0' '7 2 0 1 2 0' '8 0 7 3 4 0'
verdict 'a definition' YES
lines proof '5 3 1 0 0' '6 -3 2 0 0' '7 2 0 1 2 0' '8 0 7 3 4 0'
verdict 'a candidate that is not named' 'NO Candidates 2'
lines proof '5 2 0 1 2 0'
verdict 'no empty clause' 'NO NoEmptyClause 0'
lines proof '5 d 9 0' '5 2 0 1 2 0' '6 0 5 3 4 0'
verdict 'a dead id' 'NO DeadId 1'
printf '5 2 0 1 2 0\n6 0 5 3 4 0' > "$work/proof"
verdict 'a last line without LF' YES
printf '5 2 0 1 2 0\r\n\r\n6\t0 5  3 4 0\r\n' > "$work/proof"
verdict 'CR LF, blanks, an empty line' YES
: > "$work/proof"
verdict 'an empty certificate' 'NO NoEmptyClause 0'

# One line or a few, and the first fault.
while IFS='|' read -r proof wanted; do
    printf '%b\n' "$proof" > "$work/proof"
    verdict "$proof" "NO $wanted"
done <<'ROWS'
5 2 0 1 2|LineForm 1
4 2 0 1 2 0|IdOrder 1
5 2 2 0 1 2 0|ClauseForm 1
5 2 0 1 9 0|DeadId 1
5 d 1 1 0|DeadId 1
5 0 1 0|HintNotUnit 1
5 2 0 1 2 3 0|HintAfterConflict 1
5 0 0|NoConflict 1
5 2 0 1 0|Candidates 1
5 3 1 0 0\n6 -3 2 0 -5 0|NoConflict 2
5 3 1 0 0\n6 -3 -1 0 -5 1 3 0|HintAfterConflict 2
5 d 4 0\n4 2 0 1 2 0|IdOrder 2
5 3 1 0 0\n6 -3 -1 0 -5 0|NoEmptyClause 0
5 2 0 1 2 0\n6 0 5 3 4 0\n7 1 0 0|TrailingLine 3
5 2 0 1 2 0\n6 0 5 3 4|LineForm 2
4611686018427387904 1 0 0|LineForm 1
5 -0 0 0|LineForm 1
5 134217728 0 0|ClauseForm 1
5 134217727 0 0|NoEmptyClause 0
\n \n|NoEmptyClause 0
\n\r\n \t\n  \r\n5 d 9 0|DeadId 5
5 2 0 1 2 0\n\n \n6 0 5 3 4 0\n\n\n7 1 0 0|TrailingLine 7
\n\r 5 d 9 0|LineForm 2
5 2 0 1 2 0\n5 2 0 1 2 0|IdOrder 2
5 2 -2 0 1 2 0|ClauseForm 1
5 2 0 1 2 -3 0|HintAfterConflict 1
5 3 1 0 0\n6 -3 2 0 0|Candidates 2
5 3 1 0 0\n6 -3 2 0 -5 1 0\n7 2 0 1 2 0|NoEmptyClause 0
ROWS
lines proof '9 1 0 1 3 0' '9 d 1 3 0' '12 0 9 2 4 0'
verdict 'ids with gaps, and deletions' YES
# Memory is given back: 2,000 copies of a clause, of which every fifth hundredth stays and is used.
{
    seq 5 2004 | sed 's/$/ 2 0 1 2 0/'
    echo "2004 d $(seq 5 2004 | awk '$1 % 500' | tr '\n' ' ')0"
    printf '%s\n' '2005 1 2 0 1500 0' '2006 2 0 2005 2 0' '2006 d 1000 2000 0' \
        '2007 0 1500 3 4 0'
} > "$work/proof"
verdict 'a clause that stays among 2,000 that go' YES
sed '$s/1500/1501/' "$work/proof" > "$work/proof2" && mv "$work/proof2" "$work/proof"
verdict 'one that went' 'NO DeadId 2005'
lines result 'c' 's UNSATISFIABLE' 'c end'
lines text 'h 0'
lines proof '2 0 1 0'
verdict 'an empty hard clause' YES
lines result 's UNSATISFIABLE'

# Definitions of a pair of literals.
lines text 'h 1 2 3 0' 'h 1 2 4 0' 'h 1 2 5 0' 'h 1 2 6 0'
lines proof '5 -7 1 2 0 0' '6 7 -1 0 -5 0' '7 7 -2 0 -5 0' '8 7 3 0 6 7 1 0' '8 d 1 0' \
    '9 7 4 0 6 7 2 0' '9 d 2 0' '10 7 5 0 6 7 3 0' '10 d 3 0' '11 7 6 0 6 7 4 0' '11 d 4 0'
verdict 'a pair is replaced' 'NO NoEmptyClause 0'
lines proof '5 -7 1 2 0 0' '6 7 -1 0 0'
verdict 'a pair with a candidate that is not named' 'NO Candidates 2'

# Two clauses have the negated pivot. The line names both, one, one of them twice, or both out of order; and the second one,
# which is true where the line's clause is false, has a hint.
lines text 'h -9 1 0' 'h -9 -2 0' 'h 1 2 0' 'h 1 -2 0' 'h -1 0'
while IFS='|' read -r proof wanted; do
    printf '%b\n' "$proof" > "$work/proof"
    verdict "$proof" "NO $wanted"
done <<'ROWS'
6 9 -1 2 0 -1 -2 0|NoEmptyClause 0
6 9 -1 2 0 -1 0|Candidates 1
6 9 -1 2 0 -1 -1 -2 0|Candidates 1
6 9 -1 2 0 -2 -1 0|Candidates 1
6 9 -1 2 0 -1 -2 -3 0|Candidates 1
6 9 -1 2 0 -1 -2 3 0|HintAfterConflict 1
6 9 -1 2 0 -1 5 -2 0|HintAfterConflict 1
6 9 2 0 -1 3 -2 0|NoEmptyClause 0
6 9 2 0 -1 4 -2 0|HintNotUnit 1
ROWS
# A candidate of 71 literals, which is sorted once it was named.
lines text "h -9 $(seq -s ' ' 100 169) 0" 'h 1 2 0' 'h -1 0'
while IFS='|' read -r proof wanted; do
    printf '%b\n' "$proof" > "$work/proof"
    verdict "$proof" "NO $wanted"
done <<'ROWS'
4 9 -169 170 0 -1 0\n5 9 -169 0 -1 0\n6 9 -100 0 -1 0|NoEmptyClause 0
4 9 -169 0 -1 0\n5 9 -169 0 -1 2 0|HintAfterConflict 2
4 9 -169 0 -1 0\n5 9 -169 0 0|Candidates 2
4 9 -169 0 -1 0\n5 9 169 0 -1 0|NoConflict 2
4 9 -169 0 -1 0\n5 9 0 -1 0|NoConflict 2
4 9 -169 0 -1 0\n4 d 1 0\n5 9 -169 0 -1 0|Candidates 3
ROWS

# Results.
lines text 'h 1 2 0' '3 -1 0' '4 -2 0'
lines result 'o 3' 's OPTIMUM FOUND' 'v 10'
lines proof '6 0 5 4 2 3 1 0'
verdict 'an optimum' YES
lines proof '6 0 1 0'
verdict 'an optimum with a wrong hint' 'NO HintNotUnit 1'
lines result 'o 3' 's OPTIMUM FOUND' 'v 1'
verdict 'too few bits' 'NO BitsLength 3'
lines result 'o 3' 's OPTIMUM FOUND' 'v 00'
verdict 'bits that break a hard clause' 'NO NotFeasible 3'
lines result 'o 2' 's OPTIMUM FOUND' 'v 10'
verdict 'a cost that the bits do not have' 'NO CostWrong 1'
lines result 'c so far' 'o 7' 'o 3' 's OPTIMUM FOUND' 'v 10'
lines proof '6 0 5 4 2 3 1 0'
verdict 'the last cost counts' YES
lines result 'o 3' 'o 3' 's OPTIMUM FOUND' 'v 10'
verdict 'costs that do not fall' 'NO ResultForm 2'
lines result 's OPTIMUM FOUND' 'v 10'
verdict 'an optimum without cost' 'NO ResultForm 1'
lines result 'o 3'
verdict 'a result that ends too soon' 'NO ResultForm 0'
lines result 'o 3' 's OPTIMUM FOUND' 'v 12'
verdict 'a digit that is no bit' 'NO ResultForm 3'
lines result 'o 3' 's OPTIMUM FOUND' 'v 10' 'v 10'
verdict 'bits twice' 'NO ResultForm 4'
lines result 'o 4611686018427387904'
verdict 'a cost beyond the limit' 'NO ResultForm 1'
lines result 'o 3' 's SATISFIABLE' 'v 00'
verdict 'bits of no solution' 'NO NotFeasible 3'
lines result 'o 3' 's SATISFIABLE' 'v 10'
verdict 'a solution is no optimum' 'NO StatusWithoutProof 2'
lines text 'h 1 2 0'
lines result 's UNKNOWN'
: > "$work/proof"
verdict 'no answer' 'NO StatusWithoutProof 1'
: > "$work/text"
lines result 'o 0' 's OPTIMUM FOUND' 'v'
lines proof '2 0 1 0'
verdict 'an empty text' YES
lines text '5 0'
lines result 'o 5' 's OPTIMUM FOUND' 'v'
lines proof '3 0 1 2 0'
verdict 'an empty soft clause' YES
lines text 'h 1 -1 0' '2 1 1 0' '3 -1 0'
lines result 'o 2' 's OPTIMUM FOUND' 'v 0'
lines proof '12 -2 0 11 5 10 9 0' '13 0 12 1 2 11 4 0'
verdict 'opposite and repeated literals' YES

# A certificate belongs to its profile: that of one profile is refused in another.
lines text 'h 1 2 0' '3 -1 0' '4 -2 0'
lines result 'o 3' 's OPTIMUM FOUND' 'v 10'
lines proof '4 0 3 2 1 0'
call check --profile 2 text result proof
expect 'profile 2' 0 YES ''
call check --profile 1 text result proof
expect 'a certificate of profile 2 in profile 1' 1 'NO IdOrder 1' ''
call check --profile 3 text result proof
expect 'a certificate of profile 2 in profile 3' 1 'NO DeadId 1' ''

# The clause of a greater bound follows from that of a smaller one, and is no unit.
lines text '1 1 0' '1 2 0' '1 3 0'
lines result 'o 2' 's OPTIMUM FOUND' 'v 100'
lines proof '19 -7 -8 0 18 0'
verdict 'the clause of a weaker bound' 'NO NoEmptyClause 0'
lines proof '19 -7 -8 0 18 0' '20 1 0 19 18 1 0'
verdict 'the clause of a weaker bound as a hint' 'NO HintNotUnit 2'

# Faulty texts.
lines result 's UNSATISFIABLE'
: > "$work/proof"
while IFS='|' read -r text line; do
    printf '%b' "$text" > "$work/text"
    verdict "$text" "NO Text $line"
done <<'ROWS'
h 1 2\n|1
h 01 0\n|1
-3 1 0\n|1
h1 0\n|1
5x 1 0\n|1
0 1 0\n|1
4611686018427387904 1 0\n|1
4611686018427387903 1 0\n1 -1 0\n|2
4611686018427387903 1 0\n1 x 0\n|2
h -0 0\n|1
h 4194305 0\n|1
h 1 0 2\n|1
c x\n\nh 1 x\n|3
h 1 0\r|1
p wcnf 1 1 5\n|1
ROWS

# A text that is packed.
lines result 's UNKNOWN'
printf '\037\213\010\000' > "$work/text"
call check text result /dev/null
expect 'a file of gzip' 1 'NO Text 1' "FILE is compressed: give it as '<(zcat FILE)'."
call check --profile any text result result
expect 'a file of gzip, in each profile' 1 'NO Text 1' "FILE is compressed: give it as '<(zcat FILE)'."
call lower text /dev/null
expect 'a file of gzip, lower' 1 'NO Text 1' "FILE is compressed: give it as '<(zcat FILE)'."
printf '\375\067zXZ\000' > "$work/text"
call check text result /dev/null
expect 'a file of xz' 1 'NO Text 1' "FILE is compressed: give it as '<(xzcat FILE)'."
call encode text 3
expect 'a file of xz, encode' 2 '' $'error: line 1: FirstToken\nFILE is compressed: give it as \'<(xzcat FILE)\'.'
call encode --profile 3 --proof result text 3
expect 'a file of xz, encode --proof' 2 '' $'error: line 1: FirstToken\nFILE is compressed: give it as \'<(xzcat FILE)\'.'
call solve --best best text
expect 'a file of xz, solve --best' 2 '' $'error: line 1: FirstToken\nFILE is compressed: give it as \'<(xzcat FILE)\'.'
call solve --from result text
expect 'a file of xz, solve --from' 2 '' $'error: line 1: FirstToken\nFILE is compressed: give it as \'<(xzcat FILE)\'.'
printf '\375\067zXZ1' > "$work/text"
call check text result /dev/null
expect 'no file of xz' 1 'NO Text 1' ''

# What is not a file, and words that the command does not take.
lines text 'h 1 0'
call check missing result proof
expect 'a missing instance' 3 '' 'error: Read missing'
call check text missing proof
expect 'a missing result' 3 '' 'error: Read missing'
call check text result missing
expect 'a missing certificate' 3 '' 'error: Read missing'
call check . result proof
expect 'a folder' 3 '' 'error: Read .'
call check text result
ok 'too few words' test "$status" = 2 -a -z "$out" -a -n "$err"
call check text result proof more
ok 'too many words' test "$status" = 2 -a -z "$out" -a -n "$err"
call
ok 'no command' test "$status" = 2 -a -z "$out" -a -n "$err"
call check --help
ok 'help' test "$status" = 0 -a -n "$out" -a -z "$err"
if [ -c /dev/full ]; then
    out=$(cd "$work" && "$wmax" check text result proof 2>&1 > /dev/full)
    status=$?
    ok 'an output that is full' test "$status" = 3 -a "$out" = 'error: Output'
fi

# Bytes of any kind.
random_bytes() { # SEED: 2,000 of them
    python3 -c 'import random, sys; sys.stdout.buffer.write(random.Random(int(sys.argv[1])).randbytes(2000))' "$1"
}
for seed in 1 2 3 4 5 6 7 8; do
    for f in text result proof; do
        random_bytes "$seed" > "$work/$f"
    done
    call check text result proof
    ok "random bytes $seed" test "$status" = 1 -a "${out% *}" = 'NO Text' -a -z "$err"
    lines text 'h 1 2 0'
    lines result 's UNSATISFIABLE'
    call check text result proof
    ok "a random certificate $seed" test "$status" = 1 -a -z "$err"
done

# The examples, and each of them with a line left out or changed.
for text in examples/*.wcnf; do
    name=${text%.wcnf}
    cp "$text" "$work/text"
    cp "$name.result" "$work/result"
    cp "$name.lrat" "$work/proof"
    verdict "$name" YES
    sed '$d' "$name.lrat" > "$work/proof"
    call check text result proof
    ok "$name without its last line" test "$status" = 1 -a "$out" = 'NO NoEmptyClause 0'
done
totals
