#!/usr/bin/env bash
# Texts of the older form, which begin with a header, through `wmax solve`, `check` and `encode`.
source "$(dirname "$0")/../lib"

optimum() { # NAME LINE..: the end of the result of text; its certificate is accepted
    local name=$1
    shift
    call solve --proof proof text
    printf '%s\n' "$out" > "$work/result"
    ok "$name, the result" test "$status" = 30 -a "$(tail -n $# <<< "$out")" = "$(printf '%s\n' "$@")"
    call check text result proof
    expect "$name, the certificate" 0 YES ''
}

faulty() { # NAME LINE FAULT
    lines result 's UNSATISFIABLE'
    : > "$work/proof"
    call solve text
    expect "$1, solve" 2 '' "error: line $2: $3"
    call encode text 1
    expect "$1, encode" 2 '' "error: line $2: $3"
    call check text result proof
    expect "$1, check" 1 "NO Text $2" ''
}

lines text 'p wcnf 2 3 10' '10 1 2 0' '3 -1 0' '4 -2 0'
optimum 'one of two' 'o 3' 's OPTIMUM FOUND' 'v 10'
call encode text 3
expect 'one of two, the formula' 0 "$(printf '%s\n' 'p cnf 4 5' '1 2 0' '-1 3 0' '-2 4 0' '-4 0' '-3 0')" ''
lines text 'p wcnf 0 0 1'
call solve text
expect 'no clauses' 30 "$(printf '%s\n' 'o 0' 's OPTIMUM FOUND' 'v')" 'warning: no clause was read'
lines text 'p wcnf 3 1 5' '2 1 0'
call encode text 5
expect 'more variables than the clauses have' 0 "$(printf '%s\n' 'p cnf 4 1' '1 4 0')" ''
lines text 'p wcnf 3 0 5'
call solve text
ok 'variables without a clause' test "$status" = 30 -a -n "$(grep -xE 'v [01]{3}' <<< "$out")"
printf 'c one\r\n\r\n\tp  wcnf 1 2 4611686018427387904\r\nc two\r\n4611686018427387904 -1 0\r\n3 1 0' > "$work/text"
optimum 'comments, CR LF, the greatest weight' 'o 3' 's OPTIMUM FOUND' 'v 0'
lines text 'p wcnf 1 2 5' '5 1 0' '5 -1 0'
call solve text
expect 'no solution' 20 's UNSATISFIABLE' ''

while IFS='|' read -r text line fault; do
    printf '%b\n' "$text" > "$work/text"
    faulty "$text" "$line" "$fault"
done <<'ROWS'
p wcnf 1 1 5|1|Count
p wcnf 1 1|1|Header
p wcnf 1 1 5\n6 1 0|2|Weight
p wcnf 1 1 5\n5 2 0|2|Variable
p wcnf 1 1 5\nh 1 0|2|FirstToken
p wcnf 1 1 5\n5 1 0\n2 1 0|3|Count
h 1 0\np wcnf 1 1 5|2|OldForm
p wcnf 1 0 5\np wcnf 1 0 5|2|OldForm
c x\n\np wcnf 1 2 5\n5 1 0|3|Count
p wcnf 1 1 5 0|1|Header
p|1|Header
p cnf 1 1 5|1|Header
p wcnf 01 1 5|1|Header
p wcnf 1 -1 5|1|Header
p wcnf 4194305 1 5|1|Header
p wcnf 1 4456449 5|1|Header
p wcnf 1 1 0|1|Header
p wcnf 1 1 4611686018427387905|1|Header
p wcnf 1 1 5\n0 1 0|2|Weight
p wcnf 1 1 5\n5 1 2 0|2|Variable
p wcnf 1 1 5\n5 1|2|NoZero
p wcnf 1 1 5\n5 1 0 1|2|AfterZero
p wcnf 1 1 5\nx 1 0|2|FirstToken
p wcnf 1 1 5\n5 x 0|2|Literal
p wcnf 1 2 4611686018427387904\n4611686018427387903 1 0\n1 1 0|3|WeightSum
px wcnf 1 1 5|1|FirstToken
ROWS

# A text of before 2022: the weight of a hard clause is the sum of the others and one more.
older() { # FILE: the text of today's form in the older one
    awk '/^(c|$)/ { next }
        { lines[++count] = $0; if ($1 != "h") sum += $1; for (i = 2; i < NF; i++) { v = $i < 0 ? -$i : $i; if (v > most) most = v } }
        END {
            # awk counts exactly below 2^53; the greatest weight of a header is above all others
            top = sum < 9007199254740992 ? sprintf("%.0f", sum + 1) : "4611686018427387904"
            print "p wcnf", most + 0, count + 0, top
            for (i = 1; i <= count; i++) { sub(/^h/, top, lines[i]); print lines[i] }
        }' "$1"
}

awk -v dir="$work" -v count=60 -f tests/program/random.awk > "$work/wanted"
while read -r number wanted; do
    call solve "$number.wcnf"
    today=$out today_status=$status
    older "$work/$number.wcnf" > "$work/text"
    call solve --proof proof text
    expect "instance $number" "$today_status" "$today" ''
    printf '%s\n' "$out" > "$work/result"
    call check "$number.wcnf" result proof
    expect "instance $number, the certificate" 0 YES ''
    call solve --profile 3 --proof proof text
    printf '%s\n' "$out" > "$work/result"
    call check --profile 3 "$number.wcnf" result proof
    expect "instance $number, the certificate of profile 3" 0 YES ''
done < "$work/wanted"

totals
