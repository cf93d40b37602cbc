#!/usr/bin/env bash
# `--best PATH`: whatever happens, PATH has a whole text, and what it says is so.
source "$(dirname "$0")/../lib"

best_is() { # NAME LINE..: PATH has these lines, and nothing is left beside it
    local name=$1
    shift
    ok "$name: the text" [ "$(cat "$work/best")" = "$(printf '%s\n' "$@")" ]
    ok "$name: nothing beside it" [ ! -e "$work/best.part" ]
}

# Each status, where nothing stands there yet.
: > "$work/best"
lines text 'h 1 2 0' '3 -1 0' '4 -2 0'
call solve --best best --proof proof text
expect 'an optimum' 30 $'o 3\ns OPTIMUM FOUND\nv 10' ''
best_is 'an optimum' 'o 3' 's OPTIMUM FOUND' 'v 10'
call check text best proof
expect 'it checks' 0 YES ''
rm "$work/best"
cp examples/roster.wcnf "$work/text"
call solve --best best --conflicts 0 text
best_is 'nothing' 's UNKNOWN'
call solve --best best --conflicts 1 text
ok 'little effort' [ "$status" = 10 ]
best_is 'a solution' "$(grep '^o' <<< "$out" | tail -n 1)" 's SATISFIABLE' "$(grep '^v' <<< "$out")"
call check text best /dev/null
expect 'the solution is right' 1 'NO StatusWithoutProof 2' ''
rm "$work/best"
lines text 'h 1 0' '3 2 0'
call solve --best best text
best_is 'no cost' 'o 0' 's OPTIMUM FOUND' 'v 11'
rm "$work/best"
lines text 'h 1 0' 'h -1 0'
call solve --best best text
best_is 'no solution' 's UNSATISFIABLE'
rm "$work/best"
lines bad 'h 1'
call solve --best best bad
expect 'a faulty text' 2 '' 'error: line 1: NoZero'
best_is 'a faulty text' 's UNKNOWN'

# The search begins with the solution that an earlier run left, which stays until there is one that is as cheap.
cp examples/roster.wcnf "$work/text"
call solve text
bits=$(tail -n 1 <<< "$out")
lines best 'o 4' 's SATISFIABLE' "$bits"
call solve --best best --conflicts 1 text
expect 'an earlier solution, a unit of effort' 10 $'o 4\ns SATISFIABLE\n'"$bits" ''
best_is 'an earlier solution, a unit of effort' 'o 4' 's SATISFIABLE' "$bits"
call solve --best best text
expect 'an earlier solution, all of the effort' 30 $'o 4\ns OPTIMUM FOUND\n'"$bits" ''
lines best 'o 5' 'o 4' 's OPTIMUM FOUND' "$bits"
call solve --best best --conflicts 1 text
expect 'an optimum that this run has not shown' 10 $'o 4\ns SATISFIABLE\n'"$bits" ''
best_is 'an optimum that this run has not shown' 'o 5' 'o 4' 's OPTIMUM FOUND' "$bits"
call solve --best best --conflicts 0 text
best_is 'an optimum, no effort' 'o 5' 'o 4' 's OPTIMUM FOUND' "$bits"
call solve --best best text
best_is 'an optimum that this run has shown too' 'o 4' 's OPTIMUM FOUND' "$bits"
lines best 's UNSATISFIABLE'
call solve --best best --conflicts 0 text
best_is 'no solution, as an earlier run said, no effort' 's UNSATISFIABLE'
lines text 'h 1 2 0' '3 -1 0' '4 -2 0'
lines best 'o 4' 's SATISFIABLE' 'v 01'
call solve --best best --conflicts 0 text
expect 'an earlier solution, no effort' 0 's UNKNOWN' ''
best_is 'an earlier solution, no effort' 'o 4' 's SATISFIABLE' 'v 01'
call solve --best best text
best_is 'an earlier solution, a cheaper one' 'o 3' 's OPTIMUM FOUND' 'v 10'
call solve --best best --conflicts 0 text
best_is 'an earlier optimum' 'o 3' 's OPTIMUM FOUND' 'v 10'
lines best 'o 5' 'o 3' 's SATISFIABLE' 'v 10'
call solve --best best text
best_is 'the optimum of an earlier cost' 'o 3' 's OPTIMUM FOUND' 'v 10'
lines best 'o 4' 's SATISFIABLE' 'v 01'
call solve --best best bad
expect 'an earlier solution, a faulty text' 2 '' 'error: line 1: NoZero'
best_is 'an earlier solution, a faulty text' 'o 4' 's SATISFIABLE' 'v 01'
lost() { # NAME LINE..: PATH has these lines, which this run does not lose
    local name=$1
    shift
    lines best "$@"
    call solve --best best text
    expect "$name" 2 '' 'error: --best names a file that is not a correct result for FILE'
    best_is "$name" "$@"
}
lost 'no result' 'of an earlier run'
lost 'no end' 'o 3'
lost 'another cost' 'o 3' 's SATISFIABLE' 'v 01'
lost 'no solution of this instance' 'o 0' 's OPTIMUM FOUND' 'v 00'
lost 'too few bits' 'o 3' 's OPTIMUM FOUND' 'v 1'
lines best 's UNSATISFIABLE'
call solve --best best text
ok 'a result without a solution' [ "$status" = 30 -a "$(sed -n 2p "$work/best")" = 's OPTIMUM FOUND' ]
printf 'before\n' > "$work/proof"
lines best 'o 3' 's SATISFIABLE' 'v 01'
call solve --best best --proof proof text
ok 'the certificate of an earlier run stays' [ "$status" = 2 -a "$(cat "$work/proof")" = before ]
cp "$work/proof" "$work/both"
call solve --best both --proof both text
ok 'one file for both stays' [ "$status" = 2 -a "$(cat "$work/both")" = before ]
ln "$work/both" "$work/link"
call solve --best both --proof link text
ok 'one file by two names stays' [ "$status" = 2 -a "$(cat "$work/both")" = before ]
rm -f "$work/both" "$work/link" "$work/proof"
call solve --best new --proof new text
ok 'one name for both leaves nothing' [ "$status" = 2 -a ! -e "$work/new" ]
call solve --best new --proof new.part text
ok 'the name beside it leaves nothing' [ "$status" = 2 -a ! -e "$work/new" -a ! -e "$work/new.part" ]

# A failed output: what was met before stays.
rm "$work/best"
if [ -c /dev/full ]; then
    err=$(cd "$work" && timeout 60 "$wmax" solve --best best text 2>&1 > /dev/full)
    ok 'a full output' [ "$?" = 3 -a "$err" = 'error: Output' ]
    ok 'a full output: the solution' [ "$(sed -n 2p "$work/best")" = 's SATISFIABLE' ]
    rm "$work/best"
    call solve --best best --proof /dev/full text
    ok 'a full certificate' [ "$status" = 3 -a "$err" = 'error: ProofOutput' ]
    best_is 'a full certificate' "$(tail -n 1 <<< "$out")" 's SATISFIABLE' "$(tail -n 1 "$work/best")"
fi

# A later solution stands there before its cost is told: the output fails behind the line of the first one.
for seed in 1 2 3 4 5 6 7 8; do
    awk -v family=diagnosis -v size=60 -v seed=$seed -f bench/maxsat.awk > "$work/several"
    call solve --profile 3 --conflicts 3000 several
    [ "$(grep -c '^o ' <<< "$out")" -lt 2 ] || break
done
ok 'several solutions' [ "$(grep -c '^o ' <<< "$out")" -ge 2 ]
first=$(head -n 1 <<< "$out")
compiles -O1 -shared -fPIC -o "$work/device.so" tests/program/device.c
rm -f "$work/best"
told=$(cd "$work" && DEVICE=out DEVICE_AT=$((${#first} + 1)) LD_PRELOAD=./device.so timeout 60 "$wmax" solve --profile 3 --conflicts 3000 \
    --best best several 2> .err)
ok 'an output that fails at the second line' [ "$(cat "$work/.err")" = 'error: Output' -a "$told" = "$first" ]
ok 'an output that fails at the second line: the cheaper solution' [ "$(sed -n 1s/..//p "$work/best")" -lt "${first:2}" ]
ok 'an output that fails at the second line: a whole text' [ "$(sed -n 2p "$work/best")" = 's SATISFIABLE' ]

# What is refused, and left as it was.
refusal='error: --best names another file of the run, or something other than a regular file'
refused() { # NAME WORD..
    local name=$1
    shift
    cp "$work/text" "$work/before"
    call solve "$@"
    expect "$name" 2 '' "$refusal"
    ok "$name: the text stays" cmp -s "$work/text" "$work/before"
}
rm -f "$work"/{best,proof,link,hard}
ln -s text "$work/link"
ln "$work/text" "$work/hard"
cp "$work/text" "$work/other.part"
for path in text ./text "$work/text" link hard; do refused "FILE as $path" --best $path text; done
refused 'FILE beside it' --best other other.part
refused 'the certificate' --best proof --proof proof text
refused 'the certificate beside it' --best proof --proof proof.part text
rm -f "$work/linked" && ln -s elsewhere "$work/linked"
refused 'a link to nothing' --best linked text

# Two paths are of one file where they have one folder and one name, however they are spelled.
mkdir "$work/folder"
ln -s folder "$work/other_name"
twice() { # NAME WORD..: the run has one file for two things
    local name=$1
    shift
    call solve "$@" text
    expect "$name" 2 '' "$refusal"
    ok "$name: nothing is left" [ -z "$(ls "$work/folder")" -a ! -e "$work/best" -a ! -e "$work/best.part" -a ! -e "$work/best.part.part" ]
}
rm -f "$work/best"
for path in best.part ./best.part "$work/best.part" folder/../best.part best ./best "$work/best" folder/.././best; do
    twice "the certificate as $path" --best best --proof $path
done
for name in best best.part; do twice "a folder of two names, $name" --best folder/best --proof other_name/$name; done
call solve --best folder/best --proof best text
ok 'one name in two folders' [ "$status" = 30 -a -e "$work/folder/best" ]
rm -f "$work/folder/best" "$work/best"
lines best.part 'o 4' 's SATISFIABLE' 'v 01'
refused 'RESULT, which the text is written to first' --best best --from best.part text
ok 'RESULT stays' [ "$(head -n 1 "$work/best.part")" = 'o 4' ]
rm -f "$work/best.part"
refused 'the certificate, by a link' --best proof --proof proof link
refused 'a folder' --best . text
refused 'a device' --best /dev/null text
ok 'a device stays' [ -c /dev/null ]
mkfifo "$work/pipe.part"
refused 'a pipe beside it' --best pipe text

# What cannot be written is told before the search, and before anything is emptied.
unwritten='error: --best cannot be written'
cp examples/roster.wcnf "$work/text"
lines proof before
for path in missing/best text/best; do
    call solve --best $path --proof proof text
    expect "an unwritable path, $path" 3 '' "$unwritten"
    ok "an unwritable path, $path: the certificate of an earlier run stays" [ "$(cat "$work/proof")" = before ]
done
lines best 's UNKNOWN'
call solve --best best --proof missing/proof text
expect 'an unwritable certificate' 3 '' 'error: ProofOutput'
rm "$work/proof"
chmod 0 "$work/best"
if [ -r "$work/best" ]; then
    echo 'files without permission can be read here: not tried'
else
    call solve --best best text
    expect 'an unreadable path' 3 '' 'error: Read best'
fi
rm -f "$work/best"
full() { # NAME: with no room on the disk
    err=$(cd "$work" && { trap '' XFSZ; ulimit -f 0; timeout 60 "$wmax" solve --best best text 2>&1 > /dev/null; } | cat)
    ok "$1" [ "$err" = "$unwritten" -a ! -e "$work/best.part" ]
}
full 'a full disk'
ok 'a full disk: no text' [ ! -e "$work/best" ]
lines text 'h 1 2 0' '3 -1 0' '4 -2 0'
lines best 'o 4' 's SATISFIABLE' 'v 01'
full 'a full disk, an earlier solution'
best_is 'a full disk, an earlier solution' 'o 4' 's SATISFIABLE' 'v 01'

# Killed at forty moments: PATH has a whole text, and the solution in it is one. Where the machine is so busy that few
# solutions were met by then, at forty later ones.
awk 'BEGIN {
    srand(7)
    print "h 100000 0" # so that a text takes many writes
    for (i = 1; i <= 600; i++) printf "h %d %d 0\n", int(rand() * 200) + 1, int(rand() * 200) + 1
    for (i = 1; i <= 200; i++) printf "1 -%d 0\n", i
}' > "$work/text"
wrong=0
solved=0
# killed HUNDREDTHS: after so many of a second
killed() {
    rm -f "$work/best"
    { (cd "$work" && timeout -s KILL "$(($1 / 100)).$(printf %02d $(($1 % 100)))" "$wmax" solve --best best text > .out); } 2> /dev/null
    [ -e "$work/best" ] || return
    call check text best /dev/null
    case "$out $(grep '^s' "$work/best")" in
        'NO StatusWithoutProof 2 s SATISFIABLE') solved=$((solved + 1)) ;;
        'NO StatusWithoutProof 1 s UNKNOWN' | 'NO NoEmptyClause '*' s OPTIMUM FOUND') ;;
        *) wrong=$((wrong + 1)); echo "killed at $1: $out"; head -c 200 "$work/best" ;;
    esac
}
for step in 1 4 16; do
    for ((moment = 1; moment <= 40; moment++)); do killed $((moment * step)); done
    [ $solved -le 3 ] || break
done
ok "killed at forty moments: $solved solutions" [ $wrong = 0 -a $solved -gt 3 ]
totals
