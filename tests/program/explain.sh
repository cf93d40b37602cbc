#!/usr/bin/env bash
# `wmax explain`: what a result costs, what is given up for it and what is broken.
source "$(dirname "$0")/../lib"

explained() { # NAME STATUS LINE..: of text and result
    local name=$1 wanted=$2
    shift 2
    call explain text result
    expect "$name" "$wanted" "$(printf '%s\n' "$@")" ''
}

lines text 'c who works' 'h 1 2 3 0' 'c tea' '3 -1 0' '4 -2 0' '' 'c not above' '' '4 -3 0' 'h 4 0'
lines result 'o 11' 's SATISFIABLE' 'v 1111'
explained 'heaviest first, with the comments above' 0 'cost 11' 'given up: 3 of 3 soft clauses' \
    '+ 4 = 4, line 5: 4 -2 0' '+ 4 = 8, line 9: 4 -3 0' '+ 3 = 11, line 4: 3 -1 0' '    c tea'
lines result 'o 3' 's OPTIMUM FOUND' 'v 1001'
explained 'one clause' 0 'cost 3' 'given up: 1 of 3 soft clauses' '+ 3 = 3, line 4: 3 -1 0' '    c tea'
lines result 'o 5' 's OPTIMUM FOUND' 'v 1001'
explained 'another cost' 1 'cost 3, where the result says 5' 'given up: 1 of 3 soft clauses' '+ 3 = 3, line 4: 3 -1 0' '    c tea'
lines result 'o 0' 's OPTIMUM FOUND' 'v 0000'
explained 'broken clauses' 1 'cost 0' 'given up: 0 of 3 soft clauses' 'broken, hard, line 2: h 1 2 3 0' '    c who works' \
    'broken, hard, line 10: h 4 0'
lines result 'o 0' 's OPTIMUM FOUND' 'v 000'
explained 'too few bits' 1 'the result has 3 bits, and the instance 4 variables'
lines result 's UNKNOWN'
explained 'no solution was met' 0 'the result has no bits: no solution was met'

lines text 'c older' 'p wcnf 2 3 10' 'c needed' '10 1 2 0' 'c' '3 -1 0' '4 -2 0'
lines result 'o 7' 's SATISFIABLE' 'v 11'
explained 'the older form' 0 'cost 7' 'given up: 2 of 2 soft clauses' '+ 4 = 4, line 7: 4 -2 0' '+ 3 = 7, line 6: 3 -1 0'
lines result 'o 0' 's SATISFIABLE' 'v 00'
explained 'the older form, broken' 1 'cost 0' 'given up: 0 of 2 soft clauses' 'broken, hard, line 4: 10 1 2 0' '    c needed'
printf 'h 1 2 0\r\n3 -1 0\r\nc cr\r\n4 -2 0' > "$work/text"
lines result 'o 4' 's SATISFIABLE' 'v 01'
explained 'CR LF' 0 'cost 4' 'given up: 1 of 2 soft clauses' '+ 4 = 4, line 4: 4 -2 0' '    c cr'

printf 'h 1 2 0\n3 -1 0\nc a\tb\033[31mc\177\001 \303\251\n4 -2 0\n' > "$work/text"
explained 'bytes that command a terminal' 0 'cost 4' 'given up: 1 of 2 soft clauses' '+ 4 = 4, line 4: 4 -2 0' $'    c a\tb?[31mc?? \303\251'

# shown NAME BYTES WANTED: a comment with these bytes
shown() {
    printf "h 1 2 0\n3 -1 0\nc a${2}b\n4 -2 0\n" > "$work/text"
    explained "$1" 0 'cost 4' 'given up: 1 of 2 soft clauses' '+ 4 = 4, line 4: 4 -2 0' "    c a${3}b"
}
shown 'C1 controls by code point' '\302\200\302\233\302\237' '??????'
shown 'what follows C1 is shown' '\302\240\302\251' $'\302\240\302\251'
shown 'bytes that are no part of UTF-8' '\200\233\237\240\351\377' '??????'
shown 'overlong forms of ESC, DEL and the tab' '\300\233\301\277\340\200\211\360\200\200\233' '???????????'
shown 'surrogates, and above U+10FFFF' '\355\240\200\364\220\200\200' '???????'
shown 'characters that are cut off' '\342\200 \360\237\230 \303' '?? ??? ?'
shown 'marks of direction' '\330\234\342\200\216\342\200\217' '????????'
shown 'overrides of direction' '\342\200\252\342\200\256\342\201\246\342\201\251' '????????????'
shown 'characters of two to four bytes' '\330\233\342\200\215\342\200\257\342\201\245\342\202\254\357\277\275\360\237\230\200' \
    $'\330\233\342\200\215\342\200\257\342\201\245\342\202\254\357\277\275\360\237\230\200'

# Names of variables.
lines text 'c 1 = tea' 'c 2 = coffee  with milk' $'  c\t2\t=\t\033[1mmocha' 'c' 'h 1 2 0' '3 -1 0' '4 -2 0' 'c' 'c 3 = above' \
    'c -1 = negated' 'c 02 = no number' 'c 0 = zero' 'c 2 =' 'c 2 : colon' 'cc 2 = cc' 'c 2= no space' 'c 4194305 = beyond the limit'
lines result 'o 4' 's SATISFIABLE' 'v 01'
explained 'names' 0 'cost 4' 'given up: 1 of 2 soft clauses' '+ 4 = 4, line 7: 4 -2 0' 'true: coffee with milk' 'true: ?[1mmocha'
lines result 'o 0' 's SATISFIABLE' 'v 00'
explained 'names, none true' 1 'cost 0' 'given up: 0 of 2 soft clauses' 'broken, hard, line 5: h 1 2 0'
lines result 'o 7' 's SATISFIABLE' 'v 11'
explained 'names, in the order of the comments' 0 'cost 7' 'given up: 2 of 2 soft clauses' '+ 4 = 4, line 7: 4 -2 0' '+ 3 = 7, line 6: 3 -1 0' \
    'true: tea' 'true: coffee with milk' 'true: ?[1mmocha'

# A comment that names a variable says nothing of the clause below it.
lines text 'c why' 'c 2 = coffee' '4 -2 0' 'c 1 = tea' '3 -1 0' '' 'c 1 = tea once more' '1 -2 0'
lines result 'o 8' 's SATISFIABLE' 'v 11'
explained 'a name is no reason' 0 'cost 8' 'given up: 3 of 3 soft clauses' '+ 4 = 4, line 3: 4 -2 0' '    c why' \
    '+ 3 = 7, line 5: 3 -1 0' '+ 1 = 8, line 8: 1 -2 0' 'true: coffee' 'true: tea' 'true: tea once more'

# A comment belongs to the clause that follows it, be it hard or soft, and to no other.
lines text 'c one is needed' 'h 1 2 0' '3 -1 0' 'c coffee' 'c or more' '4 -2 0' '4 -1 -2 0'
lines result 'o 11' 's SATISFIABLE' 'v 11'
explained 'a comment belongs to one clause' 0 'cost 11' 'given up: 3 of 3 soft clauses' '+ 4 = 4, line 6: 4 -2 0' '    c or more' \
    '+ 4 = 8, line 7: 4 -1 -2 0' '+ 3 = 11, line 3: 3 -1 0'
lines result 'o 0' 's SATISFIABLE' 'v 00'
explained 'a comment of a hard clause' 1 'cost 0' 'given up: 0 of 3 soft clauses' 'broken, hard, line 2: h 1 2 0' '    c one is needed'

# The sum of what is listed is the cost that `solve` told, and nothing is broken.
awk -v dir="$work" -v count=60 -f tests/program/random.awk > "$work/wanted"
while read -r number wanted; do
    [ "$wanted" = none ] && continue
    cp "$work/$number.wcnf" "$work/text"
    call solve text
    printf '%s\n' "$out" > "$work/result"
    call explain text result
    ok "instance $number" test "$status $err" = '0 ' -a "$(head -n 1 <<< "$out")" = "cost $wanted" -a -z "$(grep broken <<< "$out")"
done < "$work/wanted"

# Why there is no solution.
said='the result has no bits: it says that there is no solution'
lines result 's UNSATISFIABLE'
lines text 'c one is needed' 'h 1 2 0' 'c tea is out' 'h -1 0' 'c beside the point' 'h 3 4 0' '' 'c coffee is out' 'h -2 0' '5 -3 0'
explained 'no solution' 0 "$said" '3 of 4 hard clauses contradict each other:' 'line 2: h 1 2 0' '    c one is needed' \
    'line 4: h -1 0' '    c tea is out' 'line 9: h -2 0' '    c coffee is out'
lines text 'p wcnf 3 5 9' '9 1 2 0' '2 -1 0' '9 3 -3 0' '9 -1 0' 'c why' '9 -2 0'
explained 'no solution, the older form' 0 "$said" '3 of 4 hard clauses contradict each other:' 'line 2: 9 1 2 0' 'line 5: 9 -1 0' \
    'line 7: 9 -2 0' '    c why'
lines text 'h 1 0' 'c nothing holds' 'h 0' 'h -1 0'
explained 'an empty clause' 0 "$said" '1 of 3 hard clauses contradict each other:' 'line 3: h 0' '    c nothing holds'
lines text 'h 1 2 0' 'h -1 1 0' '3 -1 0'
explained 'there is a solution' 1 "$said" 'that is wrong: the hard clauses have a solution'
: > "$work/text"
explained 'there is a solution of no clause' 1 "$said" 'that is wrong: the hard clauses have a solution'
lines proof '5 2 0 1 2 0' '6 0 5 3 4 0'
lines text 'h 1 2 0' 'h -1 2 0' 'h 1 -2 0' 'h -1 -2 0'
# set_apart: `out` without what a certificate holds, which is `held`
set_apart() {
    held=$(sed -n '/^additions: /,$p' <<< "$out")
    out=$(sed '/^additions: /,$d' <<< "$out")
}
# holds NAME ADDITIONS DELETIONS COUNTS OUTPUTS GROUPS FORMS CUTS BOUNDS LIVE END: what it holds, as `held` has it
holds() {
    ok "$1: what it holds" [ "$held" = "$(printf '%s: %s\n' additions "$2" deletions "$3" counts "$4" 'further outputs of counts' "$5" \
        groups "$6" 'lines of forms' "$7" cuts "$8" bounds "$9" 'live clauses' "${10}"; printf 'PROOF %s\n' "${11}")" ]
}
call explain text result proof
set_apart
holds 'no solution, and its certificate' 2 0 0 0 0 0 0 0 6 'ends with the empty clause: it proves that there is no solution'
expect 'no solution, and its certificate' 0 "$said"$'\n4 of 4 hard clauses contradict each other:\nline 1: h 1 2 0\nline 2: h -1 2 0\nline 3: h 1 -2 0\nline 4: h -1 -2 0\nno solution\nwhy: there is no form' ''
# each NAME: the clauses that are listed of text contradict each other over all assignments, and not without one of them
each_needed() {
    call explain text result
    ok "$1: listed" [ "$status" = 0 -a "$(wc -l <<< "$out")" -gt 2 ]
    ok "$1: needed" python3 - "$work/text" "$out" << 'PYTHON'
import itertools, sys

clauses = [[int(word) for word in line.split()[3:-1]] for line in sys.argv[2].split('\n') if line.startswith('line ')]
text = [line.split()[1:-1] for line in open(sys.argv[1]) if line.startswith('h')]
assert all([str(lit) for lit in clause] in text for clause in clauses)
names = sorted({abs(lit) for clause in clauses for lit in clause})

def holds(clauses):
    for bits in itertools.product([False, True], repeat=len(names)):
        value = dict(zip(names, bits))
        if all(any(value[abs(lit)] == (lit > 0) for lit in clause) for clause in clauses):
            return True
    return False

assert not holds(clauses)
assert all(holds(clauses[:at] + clauses[at + 1:]) for at in range(len(clauses)))
PYTHON
}
lines result 's UNSATISFIABLE'
count=0
for seed in 1 2 3 4 5 6 7 8 9 10 11 12; do
    awk -v seed=$seed 'BEGIN {
        srand(seed)
        for (i = 0; i < 90; i++) {
            for (k = 0; k < 3; k++) clause[k] = int(rand() * 8) + 1
            printf "h"
            for (k = 0; k < 3; k++) printf " %d", (rand() < 0.5 ? -1 : 1) * clause[k]
            print " 0"
        }
    }' | awk '{ for (k = 2; k <= 4; k++) if ($k == $(k % 3 + 2) || $k == -$(k % 3 + 2)) next; print }' > "$work/text"
    call solve text
    [ "$status" = 20 ] || continue
    count=$((count + 1))
    each_needed "random $seed"
done
ok "random instances without a solution: $count" [ $count -gt 5 ]
cp examples/pigeons10.wcnf "$work/text"
call explain text result
ok 'ten pigeons' [ "$status $(sed -n 1p <<< "$out")" = "0 $said" -a -z "$err" ]

# Without a result: how much there is.
counted() { # NAME VARIABLES HARD SOFT WEIGHTS: of text
    call explain text
    expect "$1" 0 "variables: $2"$'\n'"hard clauses: $3"$'\n'"soft clauses: $4"$'\n'"sum of weights: $5" ''
}
lines text 'c who works' 'h 1 2 3 0' '3 -1 0' '4 -2 0' '' '4 -3 9 0' 'h 4 0'
counted 'an instance' 9 2 3 11
lines text 'p wcnf 12 3 10' '10 1 2 0' '3 -1 0' '4 -2 0'
counted 'an instance of the older form' 12 1 2 7
: > "$work/text"
counted 'a text without a clause' 0 0 0 0
lines text '4611686018427387902 1 0' '1 -1 0'
counted 'the greatest weights' 1 0 2 4611686018427387903
text=examples/roster.wcnf
cp $text "$work/text"
counted 'the roster' 15 "$(grep -c '^h' $text)" "$(grep -c '^[0-9]' $text)" "$(awk '/^[0-9]/ { sum += $1 } END { print sum }' $text)"

# Of a faulty text: the line, the word, and what would mend it.
mended() { # NAME TEXT FAULT LINE WORD SENTENCE [COLUMN]: with no word, none is shown
    printf "$2" > "$work/text"
    wanted="error: $3"$'\n'"  $4"$'\n'
    [ -z "$5" ] || wanted+="  here${7:+, column $7}: $5"$'\n'
    call explain text
    expect "$1" 2 '' "$wanted  $6"
    call solve text
    case $6 in
        'FILE is compressed:'*) expect "$1: solve" 2 '' "error: $3"$'\n'"$6" ;;
        *) expect "$1: solve tells the fault alone" 2 '' "error: $3" ;;
    esac
}
mended 'a byte order mark' '\357\273\277h 1 0\n' 'line 1: FirstToken' $'\357\273\277h 1 0' $'\357\273\277h' \
    'It begins with a byte order mark, which editors do not show: save FILE as UTF-8 without it.'
mended 'a no-break space' 'h 1\302\2402 0\n' 'line 1: Literal' $'h 1\302\2402 0' $'1\302\2402' \
    'It has a no-break space, which only looks like a space: type a plain one.'
mended 'a byte order mark of UTF-16' '\377\376h\000 \0001\000\n' 'line 1: FirstToken' '??h? ?1?' '??h?' \
    'It begins with a byte order mark, which editors do not show: save FILE as UTF-8 without it.'
mended 'a narrow no-break space' 'h 1\342\200\2572 0\n' 'line 1: Literal' $'h 1\342\200\2572 0' $'1\342\200\2572' \
    'It has a no-break space, which only looks like a space: type a plain one.'
for byte in 220 221 222 223 224 225; do
    mended "a dash, $byte" "h 1 \\342\\200\\${byte}2 0\n" 'line 1: Literal' "$(printf "h 1 \\342\\200\\${byte}2 0")" \
        "$(printf "\\342\\200\\${byte}2")" "It has a long dash or a typographic minus sign: type a plain '-'."
done
mended 'a typographic minus sign' 'h 1 \342\210\2222 0\n' 'line 1: Literal' $'h 1 \342\210\2222 0' $'\342\210\2222' \
    "It has a long dash or a typographic minus sign: type a plain '-'."
for byte in 213 214 215 216 217 250 251; do
    sign=$(printf "\\342\\200\\$byte")
    case $byte in 216 | 217) sign='???' ;; esac # marks of direction
    mended "a hidden character, $byte" "h 1 2 0\\342\\200\\$byte\n" 'line 1: Literal' "h 1 2 0$sign" "0$sign" \
        'It has a character that editors do not show: type the line again.'
done
mended 'a file of gzip' '\037\213\010\000\n' 'line 1: FirstToken' '????' '????' "FILE is compressed: give it as '<(zcat FILE)'."
mended 'a file of xz' '\3757zXZ\000\n' 'line 1: FirstToken' '?7zXZ?' '?7zXZ?' "FILE is compressed: give it as '<(xzcat FILE)'."
mended 'no weight' 'c x\n-2 -1 0\n' 'line 2: FirstToken' '-2 -1 0' '-2' \
    "A clause begins with 'h' if it must hold, else with its weight: 'h -1 0' or '3 -1 0'."
mended 'h in the older form' 'p wcnf 2 1 7\nh 1 0\n' 'line 2: FirstToken' 'h 1 0' h \
    "Below a line 'p wcnf V C T' a clause begins with its weight, or with T if it must hold."
mended 'another sign of a comment' '# x\n' 'line 1: FirstToken' '# x' '#' "A comment begins with 'c'."
mended 'a result' 'o 3\ns UNKNOWN\n' 'line 1: FirstToken' 'o 3' o 'This is a line of a result: give the instance first, then its result.'
mended 'a plus' '+3 1 0\n' 'line 1: FirstToken' '+3 1 0' '+3' "A number has no '+'."
mended 'a second header' 'h 1 0\np wcnf 1 1 1\n' 'line 2: OldForm' 'p wcnf 1 1 1' p \
    "A line 'p wcnf' can only come before all clauses; today's form has none."
mended 'a weight of 0' '0 1 0\n' 'line 1: Weight' '0 1 0' 0 'A weight is at least 1: what costs nothing can be left out.'
mended 'a weight with decimals' '1.5 1 0\n' 'line 1: Weight' '1.5 1 0' 1.5 \
    'A weight is a whole number: multiply all weights by one factor until they are whole.'
mended 'a weight with a leading 0' '01 1 0\n' 'line 1: Weight' '01 1 0' 01 'A number has no leading 0.'
mended 'a weight with a letter' '3x 1 0\n' 'line 1: Weight' '3x 1 0' 3x 'A weight has only digits.'
mended 'a weight that is too large' '4611686018427387904 1 0\n' 'line 1: Weight' '4611686018427387904 1 0' 4611686018427387904 \
    'A weight is below 2^62 = 4611686018427387904, and so is the sum of all weights.'
mended 'a weight above the last number' 'p wcnf 2 1 7\n8 1 0\n' 'line 2: Weight' '8 1 0' 8 \
    "No weight is above T of the line 'p wcnf V C T', which makes a clause hard."
mended 'a word' 'h 1 x2 0\n' 'line 1: Literal' 'h 1 x2 0' x2 "A literal is a variable, numbered from 1, with '-' before it for its negation."
mended 'a literal with a plus' 'h 1 +2 0\n' 'line 1: Literal' 'h 1 +2 0' '+2' "A number has no '+'."
mended 'a literal with a leading 0' 'h 1 -02 0\n' 'line 1: Literal' 'h 1 -02 0' -02 'A number has no leading 0.'
mended 'a negated 0' 'h 1 -0\n' 'line 1: Literal' 'h 1 -0' -0 'A clause ends with a plain 0, and variables begin at 1.'
mended 'commas' 'h 1,2 0\n' 'line 1: Literal' 'h 1,2 0' 1,2 'Only spaces and tabs separate words.'
mended 'no 0' 'h 1 2\n0\n' 'line 1: NoZero' 'h 1 2' '' 'A clause ends with 0, on the line on which it begins.'
mended 'two clauses' 'h 1 0 3 2 0\n' 'line 1: AfterZero' 'h 1 0 3 2 0' 3 \
    'The 0 ends the clause: each clause and each comment has a line of its own.'
mended 'two clauses, the second one hard' 'h 1 0 h 2 0\n' 'line 1: Literal' 'h 1 0 h 2 0' h \
    'The 0 ends the clause: each clause and each comment has a line of its own.'
mended 'a variable that is too large' 'h 4194305 0\n' 'line 1: Variable' 'h 4194305 0' 4194305 \
    'A variable is at most 2^22 = 4194304: number them from 1 without gaps.'
mended 'a variable above the header' 'p wcnf 2 1 7\n7 1 -3 0\n' 'line 2: Variable' '7 1 -3 0' -3 \
    "A variable is at most V of the line 'p wcnf V C T': correct that line or this one."
mended 'weights together' '4611686018427387903 1 0\n1 2 0\n' 'line 2: WeightSum' '1 2 0' 1 \
    'With this weight the sum of all reaches 2^62 = 4611686018427387904: use smaller ones.'
mended 'a text for SAT' 'p cnf 2 1\n1 2 0\n' 'line 1: Header' 'p cnf 2 1' '' \
    "This is a CNF for SAT solvers: remove this line, and put 'h' before clauses that must hold."
mended 'no weight of hard clauses' 'p wcnf 2 1\n1 2 0\n' 'line 1: Header' 'p wcnf 2 1' '' \
    "T of 'p wcnf V C T' is missing: the weight that makes a clause hard, above all others."
mended 'a weight of hard clauses that is too large' 'p wcnf 2 1 4611686018427387905\n' 'line 1: Header' 'p wcnf 2 1 4611686018427387905' '' \
    'The last number T is from 1 to 2^62 = 4611686018427387904: any above all weights will do.'
mended 'a weight of hard clauses of 0' 'p wcnf 2 1 0\n' 'line 1: Header' 'p wcnf 2 1 0' '' \
    'The last number T is from 1 to 2^62 = 4611686018427387904: any above all weights will do.'
mended 'too many variables' 'p wcnf 4194305 1 2\n' 'line 1: Header' 'p wcnf 4194305 1 2' '' 'At most 2^22 = 4194304 variables are allowed.'
mended 'too many clauses' 'p wcnf 1 4456449 2\n' 'line 1: Header' 'p wcnf 1 4456449 2' '' 'At most 4456448 clauses are allowed: 2^22 hard and 2^18 soft ones.'
mended 'another header' 'p max 1\n' 'line 1: Header' 'p max 1' '' \
    "In the older form this line is 'p wcnf V C T' with three numbers; today's form has none."
mended 'more clauses' 'c x\np wcnf 2 1 7\n7 1 0\n7 2 0\n' 'line 4: Count' '7 2 0' '' "There are more clauses than C of the line 'p wcnf V C T' says."
mended 'fewer clauses' 'c x\np wcnf 2 3 7\n7 1 0\n' 'line 2: Count' 'p wcnf 2 3 7' '' 'There are fewer clauses than this line says.'
mended 'bytes that command a terminal' 'h\t1 \033[31m\001 0\r\n' 'line 1: Literal' $'h\t1 ?[31m? 0' '?[31m?' \
    "A literal is a variable, numbered from 1, with '-' before it for its negation."
a=$(printf 'a%.0s' {1..100})
mended 'C1 controls' 'h 1 \233x\302\233\303\204 0\n' 'line 1: Literal' $'h 1 ?x??\303\204 0' $'?x??\303\204' \
    "A literal is a variable, numbered from 1, with '-' before it for its negation."
mended 'a long word' "h ${a}a 0\n" 'line 1: Literal' "h ${a:2} .." "$a .." "A literal is a variable, numbered from 1, with '-' before it for its negation." 3
many=$(seq -s ' ' 1 40)
mended 'a word beyond what is shown' "h $many x 0\n" 'line 1: Literal' "$(head -c 100 <<< "h $many") .." x \
    "A literal is a variable, numbered from 1, with '-' before it for its negation." 114
mended 'a word like one before it' "h $many 0 40 0\n" 'line 1: AfterZero' "$(head -c 100 <<< "h $many") .." 40 \
    'The 0 ends the clause: each clause and each comment has a line of its own.' 116
mended 'a line of just the length' "h ${a:2}\n" 'line 1: Literal' "h ${a:2}" "${a:2}" \
    "A literal is a variable, numbered from 1, with '-' before it for its negation."

# Why nothing is cheaper, by the form that a certificate of forms and cuts ends with.
lines text 'c one of both' 'h 1 2 0' 'c tea' '3 -1 0' '4 -2 0'
lines result 'o 3' 's OPTIMUM FOUND' 'v 10'
paid=$'cost 3\ngiven up: 1 of 2 soft clauses\n+ 3 = 3, line 4: 3 -1 0\n    c tea'
# reasoned NAME BOUND GAP LINE..: of text, result and proof, behind what is paid
reasoned() {
    local name=$1 head
    head=$paid$'\n'"at least $2"$'\n'"gap $3"
    shift 3
    call explain text result proof
    set_apart
    expect "$name" 0 "$head"$'\n'"$(printf '%s\n' "$@")" ''
}
clause=(': line 2: h 1 2 0' '    c one of both')
given_up=('  given up: line 4: 3 -1 0' '    c tea' '  given up: line 5: 4 -2 0')
lines proof 'form 1 3 1 0' 'cut 0'
reasoned 'a clause of FILE' 3 0 'why: the last form shows at least 3' 'the cost, once' "less clause 1, 3 times${clause[0]}" "${clause[1]}"
lines proof 'form 2 6 1 0' 'bound 3 0'
reasoned 'a clause, for twice the cost' 3 0 'why: the last form shows at least 3' 'the cost, 2 times' "less clause 1, 6 times${clause[0]}" \
    "${clause[1]}"
lines proof 'form 1 1 1 0' 'form + 2 1 0' 'bound 3 0'
reasoned 'a clause in two lines' 3 0 'why: the last form shows at least 3' 'the cost, once' "less clause 1, 2 times${clause[0]}" \
    "${clause[1]}" "less clause 1, once${clause[0]}" "${clause[1]}"
lines proof 'form 1 0' 'cut -2 0' '3 1 0 2 1 0' 'cut 0'
reasoned 'no fact' 3 0 'why: the last form shows at least 3' 'the cost, once'
lines proof 'count 1 1 2 0' '4 3 0 2 3 1 0' 'form 1 3 -1 0' 'cut 0'
reasoned 'a core' 3 0 'why: the last form shows at least 3' 'the cost, once' 'less count 1, 3 times: at least 1 of these' "${given_up[@]}"
holds 'a core' 1 0 1 0 0 1 1 0 5 'ends with the empty clause: it proves at least 3'
lines proof 'count 1 1 2 0' 'form 1 3 -1 0' 'bound 0 0'
reasoned 'a count of which nothing is known' 0 3 'why: the last form shows at least 0' 'the cost, once' \
    'less count 1, 3 times: at least 0 of these' "${given_up[@]}"
lines proof 'count 1 1 2 0' '4 3 0 2 3 1 0' 'count 1 3 1 0' 'form 1 1 -2 0'
reasoned 'an output of a count that is no fact' 0 3 'why: the last form shows nothing' 'the cost, once' \
    'less count 2, once: at least 0 of these' '  literal 3' "${given_up[@]:0:2}"
lines proof 'count 1 1 2 0' '4 3 0 2 3 1 0' 'count 1 3 1 0' 'form 1 1 -2 2 -1 0'
reasoned 'an output of a count that is a fact too' 0 3 'why: the last form shows at least 1' 'the cost, once' \
    'less count 1, 2 times: at least 1 of these' "${given_up[@]}" 'less count 2, once: at least 0 of these' '  count 1 has 1 or more' \
    "${given_up[@]:0:2}"
lines proof 'count 1 1 2 0' '' 'more 1 0' '6 3 0 2 3 1 0' '6 d 2 0' 'form 1 3 -1 0' 'form + 1 -1 0' 'bound 2 0'
reasoned 'a count that grows' 2 1 'why: the last form shows at least 3' 'the cost, once' \
    'less count 1, 3 times: at least 1 of these' "${given_up[@]}" 'less count 1, once: at least 1 of these' "${given_up[@]}"
holds 'a count that grows' 1 1 1 1 0 2 0 1 5 'does not end: so far it proves at least 2'
lines proof 'group -1 -2 0 1 0' 'form 1 3 -1 0' 'cut 0'
reasoned 'a group' 3 0 'why: the last form shows at least 3' 'the cost, once' 'less group 1, 3 times: at most 1 of these' '  literal -1' '  literal -2'
holds 'a group' 0 0 0 0 1 1 1 0 2 'ends with the empty clause: it proves at least 3'
lines proof '2 1 2 0 1 0' 'form 1 3 2 0' 'cut 0'
reasoned 'a clause that was added' 3 0 'why: the last form shows at least 3' 'the cost, once' 'less clause 2, 3 times: at least 1 of these' \
    "${given_up[@]}"
lines proof '2 1 2 0 1 0' 'form 1 3 2 0' '2 d 2 0' 'cut 0'
reasoned 'a clause that was deleted' 3 0 'why: the last form shows at least 3' 'the cost, once' 'less clause 2, 3 times: it was deleted'
lines proof 'form 1 3 1 0' '1 d 1 0' 'cut 0'
reasoned 'a clause of FILE that was deleted' 3 0 'why: the last form shows at least 3' 'the cost, once' "less clause 1, 3 times${clause[0]}" \
    "${clause[1]}"
: > "$work/proof"
reasoned 'no form' 0 3 'why: there is no form'
holds 'no line' 0 0 0 0 0 0 0 0 1 'does not end: so far it proves at least 0'
lines proof 'form 0 0'
reasoned 'nothing is shown' 0 3 'why: the last form shows nothing' 'the cost, 0 times'
printf 'form 1 3 1 0\nbound 3 0\nform 1 0' > "$work/proof"
reasoned 'what no line feed ends' 3 0 'why: the last form shows at least 3' 'the cost, once' "less clause 1, 3 times${clause[0]}" "${clause[1]}"
holds 'what no line feed ends' 0 0 0 0 0 1 0 1 1 'does not end: so far it proves at least 3'
lines proof 'form 1 3 1 0' 'cut 0'
mkfifo "$work/fifo"
cat "$work/proof" > "$work/fifo" &
call explain text result fifo
expect 'a pipe' 0 "$paid"$'\nat least 3\ngap 0' ''
wait
lines worse 'o 4' 's SATISFIABLE' 'v 01'
call explain text worse proof
set_apart
expect 'a gap' 0 "$(printf '%s\n' 'cost 4' 'given up: 1 of 2 soft clauses' '+ 4 = 4, line 5: 4 -2 0' 'at least 3' 'gap 1' \
    'why: the last form shows at least 3' 'the cost, once' "less clause 1, 3 times${clause[0]}" "${clause[1]}")" ''
lines wrong 'o 3' 's SATISFIABLE' 'v 01'
call explain text wrong proof
ok 'a wrong result has no gap' [ "$status" = 1 -a -z "$(grep -E 'at least|gap|why' <<< "$out")" ]
lines proof 'form 1 3 1 0' 'bound 4 0'
call explain text result proof
expect 'a faulty line' 1 "$paid"$'\nNO CutWorth 2' ''
lines proof 'core 3 1 3 4 0' '7 0 6 4 5 2 3 1 0'
call explain text result proof
expect 'no line of forms and cuts' 1 "$paid"$'\nNO LineForm 1' ''
call explain text result missing
expect 'a missing certificate' 3 '' 'error: Read missing'
# soft clauses that are no units, tautologies, two with one literal
lines text 'h 1 2 0' 'h 3 -3 0' 'h 3 0' '2 1 -1 0' '3 -1 0' '2 -2 1 -2 0' '4 -1 0'
lines result 'o 2' 's OPTIMUM FOUND' 'v 011'
paid=$'cost 2\ngiven up: 1 of 4 soft clauses\n+ 2 = 2, line 6: 2 -2 1 -2 0'
lines proof 'count 1 1 5 0' 'form 1 4 2 3 3 2 1 1 -1 0'
reasoned 'which clauses are meant' 0 2 'why: the last form shows at least 0' 'the cost, once' 'less clause 2, 4 times: line 3: h 3 0' \
    'less clause 3, 3 times: line 6: 2 -2 1 -2 0' 'less clause 1, 2 times: line 1: h 1 2 0' 'less count 1, once: at least 0 of these' \
    '  given up: line 5: 3 -1 0' '  given up: line 7: 4 -1 0' '  given up: line 6: 2 -2 1 -2 0'
# no solution
lines text 'h 1 0' 'h -1 0' '3 1 0'
lines result 's UNSATISFIABLE'
lines proof 'form 0 1 1 1 2 0' 'cut 0'
call explain text result proof
set_apart
expect 'no solution, by a form' 0 "$said"$'\n2 of 2 hard clauses contradict each other:\nline 1: h 1 0\nline 2: h -1 0\nno solution
why: the last form shows that there is no solution\nthe cost, 0 times\nless clause 1, once: line 1: h 1 0\nless clause 2, once: line 2: h -1 0' ''
# a form of twelve facts
awk 'BEGIN { for (i = 1; i <= 12; i++) { print "h " 2 * i - 1, 2 * i, 0; print i, 1 - 2 * i, 0; print i, -2 * i, 0 } }' > "$work/text"
printf 'o 78\ns OPTIMUM FOUND\nv 101010101010101010101010\n' > "$work/result"
printf 'form 1 1 1 2 2 3 3 4 4 5 5 6 6 7 7 8 8 9 9 10 10 11 11 12 12 0\ncut 0\n' > "$work/proof"
call explain text result proof
set_apart
ok 'twelve facts: the status' [ "$status$err" = 0 ]
ok 'twelve facts: the ten with the greatest weights' [ "$(grep -A 99 '^why' <<< "$out")" = "$(
    echo 'why: the last form shows at least 78'
    echo 'the cost, once'
    for i in $(seq 12 -1 3); do echo "less clause $i, $i times: line $((3 * i - 2)): h $((2 * i - 1)) $((2 * i)) 0"; done
    echo 'less 2 further facts')" ]
# what is listed of the certificate of a search stands in its last form
call explain "$PWD/tests/program/cuts/network_20_1.wcnf" "$PWD/tests/program/cuts/network_20_1.result" "$PWD/tests/program/cuts/network_20_1.lrat"
ok "a search: $status" [ "$status" = 0 ]
form=$(awk '/^form [0-9]/ { facts = "" } /^form/ { for (i = 3; i < NF; i += 2) facts = facts $i " " $(i + 1) "\n" } END { printf "%s", facts }' \
    tests/program/cuts/network_20_1.lrat)
listed=$(sed -nE 's/^(less [a-z]+ [0-9]+), once/\1, 1 times/; s/^less clause ([0-9]+), ([0-9]+) times.*/\2 \1/p
    s/^less (count|group) ([0-9]+), ([0-9]+) times.*/\3 -\2/p' <<< "$out")
ok 'a search: its facts' [ "$(sort <<< "$form")" = "$(sort <<< "$listed")" ]
set_apart
ok 'a search: its lines' [ "$(head -n 8 <<< "$held")" = "$(awk '
    /^count/ { counts++; next }
    /^more/ { outputs++; next }
    /^group/ { groups++; next }
    /^form/ { forms++; next }
    /^cut/ { cuts++; next }
    /^bound/ { bounds++; next }
    $2 == "d" { deletions++; next }
    { additions++ }
    END {
        printf "additions: %d\ndeletions: %d\ncounts: %d\nfurther outputs of counts: %d\n", additions, deletions, counts, outputs
        printf "groups: %d\nlines of forms: %d\ncuts: %d\nbounds: %d\n", groups, forms, cuts, bounds
    }' tests/program/cuts/network_20_1.lrat)" ]

# Faults.
lines text 'h 1 2'
lines result 's UNKNOWN'
call explain text result
expect 'a faulty text' 2 '' $'error: line 1: NoZero\n  h 1 2\n  A clause ends with 0, on the line on which it begins.'
call explain missing
expect 'a missing text, no result' 3 '' 'error: Read missing'
lines text 'h 1 2 0'
lines result 's MAYBE'
call explain text result
expect 'a faulty result' 1 'NO ResultForm 1' ''
call explain missing result
expect 'a missing text' 3 '' 'error: Read missing'
call explain text missing
expect 'a missing result' 3 '' 'error: Read missing'
call explain $'mis\033[31msing\302\233\u202e'
expect 'a name that commands a terminal' 3 '' 'error: Read mis?[31msing??'
call explain $'mis\nsing'
expect 'a name with a line feed' 3 '' 'error: Read mis?sing'
call $'expl\033[31main\u202e'
ok 'a command that commands a terminal' test "$status" = 2 -a -z "$out" -a -z "$(LC_ALL=C grep -P '[\x00-\x08\x0b-\x1f\x7f-\xff]' <<< "$err")"
call explain
ok 'no text is named' test "$status" = 2 -a -z "$out" -a -n "$err"
lines result 's UNKNOWN'
if [ -c /dev/full ]; then
    err=$(cd "$work" && "$wmax" explain text result 2>&1 > /dev/full)
    status=$?
    ok 'a full output' test "$status $err" = '3 error: Output'
fi
err=$(cd "$work" && "$wmax" explain text result 2>&1 >&-)
status=$?
ok 'a closed output' test "$status $err" = '3 error: Output'
totals
