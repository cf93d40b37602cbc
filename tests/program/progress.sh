#!/usr/bin/env bash
# `--progress`: lines on standard error, and nothing else is different.
source "$(dirname "$0")/../lib"

form='[0-9]+\.[0-9] s, ((no solution( yet)?|cost [0-9]+ \((1 solution|[0-9]+ solutions)\))(, at least [0-9]+(\.[0-9])?( by (cores|the relaxation|conflicts))?(, gap [0-9]+\.[0-9]{2} %)?)?, [0-9]+ conflicts \([0-9]+ a second\),( [0-9]+ MB of memory,)? [0-9]+\.[0-9]{2} % of the effort spent, [0-9]+ propagations, [0-9]+ learned clauses, [0-9]+ restarts|writing the certificate)'

plain() { # WORD..: the run without the option: `out`, `status` and the certificate
    rm -f "$work/proof"
    call solve "$@" --proof proof text
    plain_out=$out
    plain_status=$status
    cp "$work/proof" "$work/plain"
}

same() { # NAME: as without the option
    ok "$1: the same status" [ "$status" = "$plain_status" ]
    ok "$1: the same output" [ "$out" = "$plain_out" ]
    ok "$1: the same certificate" cmp -s "$work/proof" "$work/plain"
}

# numbers NAME EXPRESSION: these of the lines do not fall
numbers() {
    ok "$1 do not fall" awk -v last=0 '{ if ($1 + 0 < last) wrong = 1; last = $1 + 0 } END { exit wrong }' <<< "$(sed -nE "s|$2|\\1|p" <<< "$err")"
}

# A run of a second or two, into a file.
awk -v family=random -v size=30 -v seed=1 -f bench/maxsat.awk > "$work/text"
plain --profile 1
ok 'without it nothing is told' [ -z "$err" ]
call solve --profile 1 --proof proof --progress text
same 'a file'
ok 'a file: each line has the form' [ -z "$(grep -vxE "$form" <<< "$err")" ]
ok 'a file: nothing but whole lines' [ "$(tr -cd '\r\033' < "$work/.err" | wc -c)" = 0 -a -z "$(tail -c 1 "$work/.err")" ]
ok 'a file: a line at each solution, and no other cost' \
    [ "$(sed -nE 's/.*, cost ([0-9]+) .*/o \1/p' <<< "$err" | uniq)" = "$(grep '^o' <<< "$out")" ]
numbers 'the solutions' '.*\(([0-9]+) solutions?\).*'
numbers 'the seconds' '^([0-9.]+) s.*'
numbers 'the conflicts' '.*, ([0-9]+) conflicts.*'
numbers 'the propagations' '.*, ([0-9]+) propagations.*'
numbers 'the restarts' '.*, ([0-9]+) restarts$'
numbers 'the shares of the effort' '.*, ([0-9.]+) % of the effort spent.*'
ok 'the certificate is told of once, at the end' [ "$(grep -c 'writing the certificate' <<< "$err") $(tail -n 1 <<< "$err" | cut -d ' ' -f 3-)" = '1 writing the certificate' ]

# The share of the effort: each conflict and each solution is a unit.
call solve --profile 1 --conflicts 100 --progress text
ok 'the share of the effort' awk '
    $2 != cost { cost = $2; solutions++ }
    { share = $4 + $3 - $5; if ($3 != solutions || share < -0.01 || share > 0.01) wrong = 1 }
    END { exit wrong || !NR }' <<< "$(sed -nE 's/^([0-9.]+) s, cost ([0-9]+) \(([0-9]+) .*, ([0-9]+) conflicts .*, ([0-9.]+) % of the effort .*/\1 \2 \3 \4 \5/p' <<< "$err")"

ok 'the last line is of the end' grep -q ', 100.00 % of the effort spent, ' <<< "$(sed -n '$p' <<< "$err")"

# Without a file there is no certificate to be written, and in profile 3 it is written while the search goes on.
call solve --profile 1 --progress text
ok 'no file, no word of it' [ -z "$(grep certificate <<< "$err")" ]
ok 'profile 1 tells nothing of what is needed at least' [ -z "$(grep 'at least' <<< "$err")" ]
awk -v family=set_cover -v size=300 -v seed=1 -f bench/maxsat.awk > "$work/text"
plain --profile 3 --conflicts 500
call solve --profile 3 --conflicts 500 --proof proof --progress text
same 'profile 3'
ok 'profile 3: each line has the form' [ -z "$(grep -vxE "$form" <<< "$err")" ]
ok 'profile 3: no word of the certificate' [ -z "$(grep certificate <<< "$err")" ]
numbers 'the conflicts of profile 3' '.*, ([0-9]+) conflicts.*'
numbers 'the propagations of profile 3' '.*, ([0-9]+) propagations.*'

# What is needed at least, as the certificate proves, and the gap. Below the cost it has a decimal, which is rounded up: the bound
# is that, or the next whole number.
ok 'profile 3: at least, never more than the cost, and the gap' awk -F '[ ,]+' -v best="$(grep '^o' <<< "$out" | tail -n 1 | cut -c 3-)" '
    function fits(least,    off) { off = gap - 100 * (cost - least) / cost; return off >= -0.0001 && off <= 0.0101 }
    { for (i = 3; i <= NF; i++) { if ($i == "least") low = $(i + 1); if ($i == "cost") cost = $(i + 1); if ($i == "gap") gap = $(i + 1) } }
    / at least / {
        is_below = low ~ /\./
        if (low + 0 < last || low > best + 0 || is_below != (low < cost + 0) || is_below && !/ by /) wrong = 1
        last = low + 0
        lines++
        if (/gap/ && (!fits(low) && !(is_below && fits(int(low) + 1)) || (gap == 0) != (low == cost + 0))) wrong = 1
    }
    END { exit wrong || !lines }' <<< "$(grep cost <<< "$err")"
ok 'profile 3: which way the bound came' grep -qE ', at least [0-9]+\.[0-9] by (cores|the relaxation|conflicts), gap ' <<< "$err"
ok 'profile 3: the effort is spent at the end' grep -q ', 100.00 % of the effort spent, ' <<< "$(tail -n 1 <<< "$err")"
said=$(sed -nE 's/.*, at least ([0-9.]+)[ ,].*/\1/p' <<< "$err" | tail -n 1)
call lower text proof
ok "profile 3: $said is what the certificate proves: $out" awk -v said="$said" -v bound="${out#at least }" '
    BEGIN { exit !(said + 0 <= bound && bound - said <= (said ~ /\./)) }'

# Each solution is shown, also the later ones.
several=0
for seed in 1 2 3 4 5; do
    awk -v family=diagnosis -v size=60 -v seed=$seed -f bench/maxsat.awk > "$work/text"
    for profile in 1 2 3; do
        call solve --profile $profile --conflicts 3000 --progress text
        told=$(grep '^o' <<< "$out")
        ok "profile $profile, seed $seed: a line at each solution" \
            [ "$(sed -nE 's/.*, cost ([0-9]+) .*/o \1/p' <<< "$err" | uniq)" = "$told" ]
        [ "$(wc -l <<< "$told")" = 1 ] || several=$((several + 1))
    done
done
ok 'there are later ones' [ "$several" -gt 0 ]

# The end is told also where there was nothing to tell before.
ended() { # NAME STATUS LINE WORD..: one line on standard error, which has the form and these words
    local name=$1 wanted=$2 line=$3
    shift 3
    call solve --progress text
    ok "$name" [ "$status $(tail -n 1 <<< "$out")" = "$wanted $line" -a "$(wc -l <<< "$err")" = 1 ]
    ok "$name: the form" grep -qxE "$form" <<< "$err"
    for word; do ok "$name: $word" grep -qF -- "$word" <<< "$err"; done
}
lines text 'h 1 0' 'h -1 0'
ended 'no solution' 20 's UNSATISFIABLE' ' s, no solution, 0 conflicts ('
cp examples/roster.wcnf "$work/text"
call solve --progress --conflicts 0 text
ok 'no effort' [ "$status $out" = '0 s UNKNOWN' -a "$(wc -l <<< "$err")" = 1 ]
ok 'no effort: the form' grep -qxE "$form" <<< "$err"
ok 'no effort: all of it is spent' grep -qE ' s, no solution yet, 0 conflicts .*, 100\.00 % of the effort spent, ' <<< "$err"
if [ -r /proc/self/status ]; then ok 'the memory' grep -qE ', [1-9][0-9]* MB of memory, ' <<< "$err"; fi
# A gap that is small, and none: of 2^40 all but one by a core of two soft clauses.
lines text 'h -1 -2 0' '1099511627776 1 0' '1099511627776 2 0' '1 3 0' '1 -3 4 0' '1 -4 0'
call solve --profile 3 --progress text
ok 'no gap is told of costs that differ' awk -F '[ ,]+' '
    { for (i = 3; i <= NF; i++) { if ($i == "least") low = $(i + 1); if ($i == "cost") cost = $(i + 1); if ($i == "gap" && ($(i + 1) == 0) != (low == cost)) wrong = 1 } }
    END { exit wrong }' <<< "$err"
lines bad 'h 1'
call solve --progress bad
expect 'a faulty text' 2 '' 'error: line 1: NoZero'

# Standard error that cannot be written.
cp examples/roster.wcnf "$work/text"
plain
run() { # NAME: `status` and the certificate after a run whose standard error the caller redirects
    rm -f "$work/proof"
    out=$(cd "$work" && timeout 60 "$wmax" solve --progress --proof proof text < /dev/null)
    status=$?
}
run 2>&-
same 'closed'
if [ -c /dev/full ]; then
    run 2> /dev/full
    same 'full'
fi
rm -f "$work/proof"
out=$(cd "$work" && { { sleep 0.3; timeout 60 "$wmax" solve --progress --proof proof text 2>&1 >&3 < /dev/null; echo $? > .status; } | :; } 3>&1)
status=$(cat "$work/.status")
same 'a closed pipe'

# With --best.
call solve --progress --best best --proof proof text
same 'with --best'
ok 'with --best: each line has the form' [ -n "$err" -a -z "$(grep -vxE "$form" <<< "$err")" ]
ok 'with --best: the text' [ "$(cat "$work/best")" = "$(tail -n 3 <<< "$out")" ]
call solve --progress --best missing/best --proof proof text
expect 'an unwritable best' 3 '' 'error: --best cannot be written'

# A folder of --best that goes away between the start and the search: FILE is a pipe, which is written into after it.
mkfifo "$work/pipe"
lose() { # what follows it loses its folder
    rm -rf "$work/folder"
    mkdir "$work/folder"
    (
        until [ -e "$work/folder/best" ] || ! kill -0 $$; do sleep 0.05; done
        rm -r "$work/folder"
        cat "$work/text"
    ) > "$work/pipe" &
    loser=$!
}
found() { # where the program has not opened the pipe, what waits for it ends here
    kill "$loser" 2> /dev/null
    wait
}
lose
call solve --progress --best folder/best --proof proof pipe
same 'a best that is lost'
ok 'a best that is lost: told once, on a line' [ "$(grep -vxE "$form" <<< "$err")" = 'warning: folder/best cannot be written' ]
found

# A terminal. terminal WHICH WORD..: what the terminal got goes to $work/screen, WHICH is err, or both for standard output too
terminal() {
    (cd "$work" && timeout 60 python3 - "$wmax" "$@" << 'PYTHON'
import os, pty, subprocess, sys
wmax, which, *words = sys.argv[1:]
leader, follower = pty.openpty()
output = follower if which == 'both' else open('out', 'wb')
run = subprocess.Popen([wmax] + words, stdin=subprocess.DEVNULL, stdout=output, stderr=follower)
os.close(follower)
screen = b''
while True:
    try:
        piece = os.read(leader, 65536)
    except OSError:
        break
    if not piece:
        break
    screen += piece
with open('screen', 'wb') as file:
    file.write(screen.replace(b'\r\n', b'\n'))
sys.exit(run.wait())
PYTHON
    )
    status=$?
    out=$(cat "$work/out" 2> /dev/null)
}
clear=$'\r\033[K\033[?7l'
shown() { # the lines that the screen shows: what was written over is gone
    sed -E "s/^.*$(printf '\r')$(printf '\033')\[K$(printf '\033')\[\?7l//; s/$(printf '\033')\[\?7h//g" "$work/screen"
}
terminal err solve --progress --proof proof text
same 'a terminal'
ok 'a terminal: one line, ended at the end' [ "$(wc -l < "$work/screen")" = 1 -a -z "$(tail -c 1 "$work/screen")" ]
ok 'a terminal: written over at each solution' [ "$(tr -cd '\r' < "$work/screen" | wc -c)" -ge "$(grep -c '^o' <<< "$out")" ]
ok 'a terminal: it begins with a cleared line' [ "$(head -c "${#clear}" "$work/screen")" = "$clear" ]
ok 'a terminal: the last cost stands' grep -qxE "${form/no solution( yet)?|cost \[0-9\]+/$(grep '^o' <<< "$out" | tail -n 1 | sed 's/^o/cost/')}" <<< "$(shown)"
lose
terminal err solve --progress --best folder/best --proof proof pipe
same 'a terminal, a warning'
ok 'a terminal, a warning: on a line of its own' grep -qx 'warning: folder/best cannot be written' "$work/screen"
found
if [ -c /dev/full ]; then
    terminal err solve --progress --proof /dev/full text
    ok 'a terminal, a fault: on a line of its own' [ "$status" = 3 -a "$(tail -n 1 "$work/screen")" = 'error: ProofOutput' ]
    ok 'a terminal, a fault: the line before it has the form' grep -qxE "$form" <<< "$(shown | head -n 1)"
fi
terminal both solve --progress --proof proof text
ok 'one terminal: the lines of the result are whole' [ "$(shown | grep -vxE "$form")" = "$plain_out" ]
terminal err solve --proof proof text
same 'a terminal without it'
ok 'a terminal without it: nothing' [ ! -s "$work/screen" ]
totals
