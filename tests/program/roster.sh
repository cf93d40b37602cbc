#!/usr/bin/env bash
# examples/roster.py: its instance is that of examples/roster.wcnf, it prints a week of the least cost, and it prints none
# where the certificate does not check or no optimum was shown.
source "$(dirname "$0")/../lib"

# plan WORD..: the script
plan() {
    out=$(timeout 60 python3 examples/roster.py "$@" 2> "$work/.err" < /dev/null)
    status=$?
    err=$(cat "$work/.err")
}

plan --wcnf
ok 'the names of its variables' grep -qx 'c 12 = Cem Tue' <<< "$out"
ok 'what a soft clause is about' grep -qx -A 1 'c Ben works on Fri' <<< "$out"
out=$(grep -v '^c' <<< "$out")
expect 'the instance' 0 "$(grep -v '^c' examples/roster.wcnf)" ''

plan
ok 'a week' [ "$status$err" = 0 ]
ok 'the cost' grep -qx 'It costs 4, and no week costs less:' <<< "$out"
ok 'what it is made of' [ "$(sed '1,/^It costs/d' <<< "$out" | awk '{ sum += $1 } END { print sum + 0 }')" = 4 ]
ok 'one of three on each day' [ "$(sed -n 2,4p <<< "$out" | tr -cd x | wc -c)" = 5 ]

plan --weeks
expect 'a word that it does not know' 1 '' 'roster.py: usage: roster.py [--wcnf]'

# Programs that the script must not believe.
pretend() { # COMMAND ANSWER STATUS: a program that does as wmax, but for what it says to this command
    printf '#!/bin/sh\n[ "$1" = %s ] || exec "%s" "$@"\n"%s" "$@" > /dev/null\nprintf "%s"\nexit %s\n' \
        "$1" "$wmax" "$wmax" "$2" "$3" > "$work/pretender"
    chmod +x "$work/pretender"
    WMAX=$work/pretender plan
}
pretend check 'NO HintNotUnit 3\n' 1
expect 'a verdict that is not YES' 1 '' 'roster.py: the certificate does not check: NO HintNotUnit 3'
pretend check '' 3
expect 'no verdict' 1 '' 'roster.py: the certificate does not check: no verdict'
pretend solve 'o 4\ns SATISFIABLE\nv 010100010110000\n' 10
expect 'a solution that is not shown to be the best' 1 '' 'roster.py: wmax solve ended with status 10: no optimum was shown'
pretend solve 'o 3\ns OPTIMUM FOUND\nv 010100010110000\n' 30
expect 'a wrong optimum' 1 '' 'roster.py: the certificate does not check: NO CostWrong 1'
WMAX=$work/missing plan
ok 'no program' [ "$status" = 1 -a -z "$out" ]
totals
