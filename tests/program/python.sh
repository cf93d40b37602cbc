#!/usr/bin/env bash
# python/wmax.py: its clauses against counting, its answers against all assignments, programs that lie, fail or do not end,
# the example in its text, and the examples that stand on it.
source "$(dirname "$0")/../lib"
export PYTHONDONTWRITEBYTECODE=1

# counted WORD..: a part of tests/program/python.py, which says what passed
counted() {
    timeout 600 python3 tests/program/python.py "$@" > "$work/said" 2>&1 < /dev/null
    sed '$d' "$work/said"
    if [[ $(tail -n 1 "$work/said") =~ ^([0-9]+)\ passed,\ ([0-9]+)\ failed$ ]]; then
        passed=$((passed + BASH_REMATCH[1]))
        failed=$((failed + BASH_REMATCH[2]))
    else
        tail -n 1 "$work/said"
        ok "python.py $*: it ended" false
    fi
}

counted counts
counted sums
counted refusals
counted texts "$wmax"
counted optima "$wmax" 150
counted lies "$wmax"
counted stops "$wmax"
counted again "$wmax"
counted reasons "$wmax"
counted examples "$wmax"
ok 'the example in its text' env WMAX="$wmax" python3 -m doctest python/wmax.py

# README.md shows what its lines print, behind the last one.
sed -n '/^```python$/,/^```$/p' README.md | grep -v '^```' > "$work/readme.py"
out=$(WMAX=$wmax PYTHONPATH=python timeout 60 python3 "$work/readme.py" 2>&1 < /dev/null)
ok 'the lines in README.md' [ -n "$out" -a "$out" = "$(sed -n 's/.*)  # //p' "$work/readme.py")" ]

# line NAME STATUS STDOUT WORD..: `python3 -m wmax` with these words, in the folder of this script
line() {
    local name=$1 wanted=$2 printed=$3
    shift 3
    out=$(cd "$work" && WMAX=$wmax PYTHONPATH=$OLDPWD/python timeout 60 python3 -m wmax "$@" 2> .err < /dev/null)
    status=$?
    err=$(cat "$work/.err")
    ok "python3 -m wmax: $name" [ "$status $out" = "$wanted $printed" ]
}
lines a.wcnf 'c 1 = tea' 'c 2 = coffee' 'c one of them' 'h 1 2 0' 'c tea costs' '3 -1 0' 'c coffee costs' '4 -2 0'
printf '%s\n' 'p wcnf 2 3 8' '8 1 2 0' '3 -1 0' '3 -2 0' | gzip > "$work/b.wcnf.gz"
lines c.wcnf 'c 1 = tea' 'c it is late' 'h -1 0' 'c tea is wanted' 'h 1 0'
line 'an optimum' 30 $'It costs 3, and nothing costs less, which was checked.\ntrue: tea\n     3  tea costs' a.wcnf
line 'variables without names' 30 $'It costs 3, and nothing costs less, which was checked.\nv 01\n     3  not variable 2' b.wcnf.gz
line 'all optima' 30 $'It costs 3, and nothing costs less, which was checked.\ntrue: tea\n     3  tea costs\nNo other solution costs as little.' --optima 5 --plot a.svg a.wcnf
ok 'python3 -m wmax: the picture' grep -q '^</svg>$' "$work/a.svg"
line 'no solution' 20 $'No assignment satisfies the hard clauses, which was checked. These contradict each other:\n  it is late\n  tea is wanted' c.wcnf
line 'no effort' 0 'no solution was met by this effort' --conflicts 0 a.wcnf
line 'files that stay' 30 $'It costs 3, and nothing costs less, which was checked.\ntrue: tea\n     3  tea costs' --folder=-here a.wcnf
call check --profile any ./-here/instance.{wcnf,result,lrat}
expect 'they check' 0 YES ''
line 'no file' 2 '' missing
ok 'python3 -m wmax: what is missing' grep -q "^error: $work/missing: No such file" <<< "$err"
line 'no words' 2 ''

# example NAME WORD..: examples/NAME.py
example() {
    local name=$1
    shift
    out=$(timeout 120 python3 "examples/$name.py" "$@" 2> "$work/.err" < /dev/null)
    status=$?
    err=$(cat "$work/.err")
}
for name in upgrade seating; do
    example $name
    ok "$name: a plan" [ "$status$err" = 0 ]
    cost=$(sed -n 's/^It costs \([0-9]*\), and no .* less:$/\1/p' <<< "$out")
    ok "$name: what it is made of" [ "$(sed '1,/^It costs/d' <<< "$out" | awk '{ sum += $1 } END { print sum + 0 }')" = "$cost" ]
    example $name --wcnf
    printf '%s\n' "$out" > "$work/$name.wcnf"
    call explain $name.wcnf /dev/null
    ok "$name: the text is an instance" [ "$status" -le 1 ]
    ok "$name: the names of variables" grep -qE '^c 1 = [A-Za-z]' "$work/$name.wcnf"
    example $name --week
    ok "$name: a word that it does not know" [ "$status" = 1 -a -z "$out" ]
    WMAX=$work/missing example $name
    ok "$name: no program" [ "$status" = 1 -a -z "$out" ]
done
totals
