#!/usr/bin/env bash
# What other solvers print, as examples/result_of_others makes results of it, and instances as examples/older_form makes
# them for other solvers. Their outputs are recorded here; clasp itself is asked where it is found.
source "$(dirname "$0")/../lib"

# converted FILE: the result of what stands in `said`
converted() {
    out=$(cd "$work" && timeout 60 "$OLDPWD/examples/result_of_others" "$1" said 2> .err < /dev/null)
    status=$?
    err=$(cat "$work/.err")
}

# gives NAME FILE LINE..: the result is these lines, and `wmax explain` finds that the bits cost just that
gives() {
    local name=$1 file=$2
    shift 2
    converted "$file"
    expect "$name" 0 "$(printf '%s\n' "$@")" ''
    printf '%s\n' "$out" > "$work/result"
    call explain "$file" result
    ok "$name: its cost" [ "$status" = 0 ]
}

# refuses NAME FILE MESSAGE
refuses() {
    converted "$2"
    expect "$1" 1 '' "result_of_others: $3"
}

cp examples/roster.{wcnf,lrat} "$work"

# clasp 3.3.5, `clasp OLDER`
cat > "$work/said" <<'SAID'
c clasp version 3.3.5
c Reading from r.wcnf
c Solving...
c Answer: 1
v -1 2 -3 4 -5 -6 -7 8 -9 -10 11 -12 -13 -14 15 0
o 7
c Answer: 2
v -1 2 -3 4 -5 -6 -7 8 -9 10 11 -12 -13 -14 -15 0
o 4
s OPTIMUM FOUND
c 
c Models         : 2
c   Optimum      : yes
c Optimization   : 4
c Calls          : 1
c Time           : 0.000s (Solving: 0.00s 1st Model: 0.00s Unsat: 0.00s)
c CPU Time       : 0.000s
SAID
gives 'clasp' roster.wcnf 'o 4' 's OPTIMUM FOUND' 'v 010100010110000'
call check roster.wcnf result roster.lrat
expect 'clasp, with a certificate' 0 YES ''
head -n 7 "$work/said" > "$work/some"
cp "$work/some" "$work/said"
gives 'clasp, stopped after a solution' roster.wcnf 'o 7' 's SATISFIABLE' 'v 010100010010001'
printf 'c Answer: 2\nv -1 2 -3 4 -5 -6 -7 8 -9 10\nv 11 -12 -13 -14 -15 0\n' >> "$work/said"
gives 'clasp, stopped after a line v' roster.wcnf 'o 4' 's SATISFIABLE' 'v 010100010110000'

# clasp 3.3.5, `clasp --opt-strategy=usc OLDER`
lines said 'c clasp version 3.3.5' 'c Solving...' 'c Progression : [3;inf]' 'c Progression : [4;inf]' 'c Answer: 1' \
    'v -1 2 -3 4 -5 -6 -7 8 -9 10 11 -12 -13 -14 -15 0' 'o 4' 's OPTIMUM FOUND' 'c ' 'c Models         : 1'
gives 'clasp, by cores' roster.wcnf 'o 4' 's OPTIMUM FOUND' 'v 010100010110000'

# clasp 3.3.5, `clasp --time-limit=1 OLDER`: solutions of several lines
awk 'BEGIN { for (i = 1; i <= 80; i++) print i % 3 + 1, i % 2 ? i : -i, 0 }' > "$work/many.wcnf"
cat > "$work/said" <<'SAID'
c Answer: 57
v -1 2 -3 4 5 6 7 8 9 -10 -11 12 13 -14 15 -16 -17 18 -19 -20 21 -22 -23
v -24 25 26 27 28 -29 30 31 -32 -33 -34 35 -36 37 38 39 -40 41 42 43 -44
v 45 -46 -47 48 49 50 51 52 -53 54 -55 56 57 -58 -59 60 -61 62 63 -64 -65
v -66 -67 68 -69 -70 -71 -72 73 -74 -75 -76 77 78 -79 -80 0
o 68
c Answer: 58
v -1 2 -3 4 5 6 7 8 9 -10 -11 12 -13 -14 15 -16 -17 18 -19 -20 21 -22 -23
v -24 25 26 27 28 -29 30 31 -32 -33 -34 35 -36 37 38 39 -40 41 42 43 -44
v 45 -46 -47 48 49 50 51 52 -53 54 -55 56 57 -58 -59 60 -61 62 63 -64 -65
v -66 -67 68 -69 -70 -71 -72 73 -74 -75 -76 77 78 -79 -80 0
o COST
s SATISFIABLE
c 
c TIME LIMIT     : 1
c Models         : 58+
c   Optimum      : unknown
SAID
bits=01011111100100100100100011110110001011101110100111110101100101100001000010001100
cost=$(awk -v bits=$bits '{ i = $2 < 0 ? -$2 : $2; if (substr(bits, i, 1) != ($2 > 0)) sum += $1 } END { print sum }' "$work/many.wcnf")
sed -i "s/COST/$cost/" "$work/said"
gives 'clasp, out of time' many.wcnf "o $cost" 's SATISFIABLE' "v $bits"

# clasp 3.3.5 on instances without soft clauses: no line o
lines hard.wcnf 'h 1 2 0'
lines said 'c Answer: 1' 'v 1 2 0' 's SATISFIABLE' 'c Models         : 1+'
gives 'clasp, nothing soft' hard.wcnf 'o 0' 's SATISFIABLE' 'v 11'
: > "$work/empty.wcnf"
lines said 'c Answer: 1' 'v  0' 's SATISFIABLE'
gives 'clasp, no variables' empty.wcnf 'o 0' 's SATISFIABLE' 'v'
lines no.wcnf 'h 1 0' 'h -1 0'
lines said 'c Solving...' 's UNSATISFIABLE' 'c ' 'c Models         : 0'
converted no.wcnf
expect 'clasp, no solution' 0 's UNSATISFIABLE' ''
lines said 's UNKNOWN' 'c ' 'c INTERRUPTED    : 1' 'c Models         : 0+' 'c Bounds         : [82;*]'
converted roster.wcnf
expect 'clasp, nothing yet' 0 's UNKNOWN' ''

# sat4j 2.3.5
lines said 'c 36 constraints processed.' 'c Found solution #1' 'o 7' 'o 4' 's OPTIMUM FOUND' 'c Found 1 solution(s)' \
    'v -1 2 -3 4 -5 -6 -7 8 -9 10 11 -12 -13 -14 -15 0' 'c objective function=4' 'c Total wall clock time (in seconds): 0.046'
gives 'sat4j' roster.wcnf 'o 4' 's OPTIMUM FOUND' 'v 010100010110000'

# The older form of the MaxSAT Evaluations: costs first, literals in one or several lines, with a 0 or without.
lines said 'c one line' 'o 7' 'o 4' 's OPTIMUM FOUND' 'v -1 2 -3 4 -5 -6 -7 8 -9 10 11 -12 -13 -14 -15'
gives 'literals in a line' roster.wcnf 'o 4' 's OPTIMUM FOUND' 'v 010100010110000'
lines said 'o 7' 'o 4' 's OPTIMUM FOUND' 'v -1 2 -3 4 -5' 'c between' 'v -6 -7 8 -9 10' 'v 11 -12 -13 -14 -15' 'c the end'
gives 'literals in lines' roster.wcnf 'o 4' 's OPTIMUM FOUND' 'v 010100010110000'
lines said 'o 4' 's OPTIMUM FOUND' 'v -1 2 -3 4 -5 -6 -7 8 -9 10 11 -12 -13 -14 -15' 'v 0'
gives 'a 0 on a line of its own' roster.wcnf 'o 4' 's OPTIMUM FOUND' 'v 010100010110000'
lines said 'v -1 2 -3 4 -5 -6 -7 8 -9 10 11 -12 -13 -14 -15' 's OPTIMUM FOUND' 'o 4'
gives 'all backwards' roster.wcnf 'o 4' 's OPTIMUM FOUND' 'v 010100010110000'
lines said 'o 7' 'v 2 4 8 11 15' 'o 4' 'v 2 4 8 10 11' 'o 3'
gives 'each cost before its solution, the last one without' roster.wcnf 'o 4' 's SATISFIABLE' 'v 010100010110000'
lines said 'o 4' 's OPTIMUM FOUND' 'v 2 4 8 10 11 16 -17 99 0'
gives 'variables beyond those of the instance' roster.wcnf 'o 4' 's OPTIMUM FOUND' 'v 010100010110000'

# The form since 2020: digits.
printf 'o 7\r\no 4\r\ns OPTIMUM FOUND\r\nv 010100010110000\r\n' > "$work/said"
gives 'digits' roster.wcnf 'o 4' 's OPTIMUM FOUND' 'v 010100010110000'
lines two.wcnf '1 1 0' '2 -2 0'
lines said 'o 0' 's OPTIMUM FOUND' 'v 10'
gives 'ten in digits' two.wcnf 'o 0' 's OPTIMUM FOUND' 'v 10'
lines ten.wcnf '1 10 0'
gives 'ten in literals' ten.wcnf 'o 0' 's OPTIMUM FOUND' 'v 0000000001'
lines one.wcnf '1 1 0'
lines said 'o 1' 's OPTIMUM FOUND' 'v 0'
gives 'one digit' one.wcnf 'o 1' 's OPTIMUM FOUND' 'v 0'
lines said 'o 0' 's OPTIMUM FOUND' 'v'
gives 'no digit' empty.wcnf 'o 0' 's OPTIMUM FOUND' 'v'

# An instance in the older form has the variables of its header.
lines older.wcnf 'p wcnf 3 2 5' '5 1 0' '2 -1 0'
lines said 'v 1 -2 -3 0' 'o 2' 's OPTIMUM FOUND'
gives 'the variables of a header' older.wcnf 'o 2' 's OPTIMUM FOUND' 'v 100'

# A lie stays one.
lines said 'o 3' 's OPTIMUM FOUND' 'v 2 4 8 10 11'
converted roster.wcnf
printf '%s\n' "$out" > "$work/result"
call check roster.wcnf result roster.lrat
expect 'a wrong cost' 1 'NO CostWrong 1' ''

# What is no result.
lines said 's OPTIMUM FOUND' 'o 4'
refuses 'no solution' roster.wcnf 's OPTIMUM FOUND, and no line v: let the solver print its solution'
lines said 's OPTIMUM' 'v 1'
refuses 'no status' roster.wcnf 'no status: s OPTIMUM'
lines said 'o four' 'v 1'
refuses 'no cost' roster.wcnf 'no cost: o four'
lines said 'o 4' 'v 1 two'
refuses 'no literal' roster.wcnf "the line v has 'two', which is no literal, and 3 digits are not one for each of 15 variables"
lines said 'o 4' 'v 0101'
refuses 'too few digits' roster.wcnf "the line v has '0101', which is no literal, and 4 digits are not one for each of 15 variables"
lines said 'o 4' 'v 1 -1'
refuses 'both signs' roster.wcnf 'a solution has both signs of the variable 1'
lines said 'v 1 0' 's SATISFIABLE'
refuses 'no cost, and no solution' roster.wcnf 'the solution has no line o, and breaks a hard clause'
lines said 'o 4' 's UNSATISFIABLE' 'v 1'
refuses 'a solution where none is said to be' roster.wcnf 's UNSATISFIABLE, and a solution'
lines bad.wcnf 'h 1 x 0'
refuses 'no instance' bad.wcnf 'bad.wcnf: line 1 is no clause'
refuses 'no file' missing.wcnf 'missing.wcnf: No such file or directory'

# older NAME: `older` has the instance of text in the older form
older() {
    out=$(timeout 60 examples/older_form "$work/$1" 2> "$work/.err" < /dev/null)
    status=$?
    err=$(cat "$work/.err")
    printf '%s\n' "$out" > "$work/older"
}
lines text 'c a comment' 'h 1 2 0' '' '3 -1 0' '4 -2 3 0' '1 0'
older text
expect 'the older form' 0 "$(printf '%s\n' 'p wcnf 3 4 9' '9 1 2 0' '3 -1 0' '4 -2 3 0' '1 0')" ''
older empty.wcnf
expect 'the older form of nothing' 0 'p wcnf 0 0 1' ''
lines text 'h 1 0' '2305843009213693951 -1 0' '2305843009213693950 -1 0'
older text
expect 'weights beyond 2^53' 0 "$(printf '%s\n' 'p wcnf 1 3 4611686018427387902' '4611686018427387902 1 0' '2305843009213693951 -1 0' '2305843009213693950 -1 0')" ''
for text in 'h 1 x 0' 'x 1 0' 'h 1' '0' 'p wcnf 1 1 1'; do
    lines text "$text"
    older text
    expect "no clause: $text" 1 '' "older_form: $work/text: line 1 is no clause of the form of 2022"
done

awk -v dir="$work" -v count=40 -f tests/program/random.awk > "$work/wanted"
command -v clasp > /dev/null || echo 'no clasp: not tried on random instances'
while read -r number wanted; do
    call solve "$number.wcnf"
    today=$(printf '%s\n' "$out" | grep -v '^v' | tail -n 2)
    older "$number.wcnf"
    call solve older
    expect "the older form of instance $number" "$status" "$out" ''
    ok "its answer" [ "$(printf '%s\n' "$out" | grep -v '^v' | tail -n 2)" = "$today" ]
    command -v clasp > /dev/null || continue
    case $(grep -vc '^h' "$work/$number.wcnf") in 0) continue ;; esac
    for strategy in bb usc usc,stratify; do
        clasp --opt-strategy=$strategy "$work/older" > "$work/said" 2> /dev/null
        [ $? -ne 65 ] || continue # a weight that it does not take
        converted "$number.wcnf"
        ok "clasp by $strategy on instance $number" [ "$status$err" = 0 -a "$(printf '%s\n' "$out" | grep -v '^v')" = "$today" ]
        printf '%s\n' "$out" > "$work/result"
        call explain "$number.wcnf" result
        ok "what clasp by $strategy found costs that, instance $number" [ "$status" = 0 -o "$(cat "$work/result")" = 's UNSATISFIABLE' ]
    done
done < "$work/wanted"
totals
