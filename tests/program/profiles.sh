#!/usr/bin/env bash
# WMAX_PROFILE, which each command takes where no `--profile` is given; `check --profile any`; what is no profile, option or line.
source "$(dirname "$0")/../lib"

lines text 'h 1 2 0' '3 -1 0' '4 -2 0'
lines plain 'h 1 2 0' '3 -1 0' '4 -2 0' '2 3 0'
call encode --profile 1 text 3
first=$out

# with VALUE WORD..: the program with this in its environment
with() {
    local value=$1
    shift
    out=$(cd "$work" && WMAX_PROFILE=$value timeout 60 "$wmax" "$@" 2> "$work/.err" < /dev/null)
    status=$?
    err=$(cat "$work/.err")
}

for profile in 1 2 3; do
    call solve --profile $profile --proof proof text
    solved=$out
    cp "$work/proof" "$work/wanted"
    with $profile solve --proof proof text
    expect "solve, $profile" 30 "$solved" ''
    ok "solve, $profile: the certificate" cmp -s "$work/proof" "$work/wanted"
    printf '%s\n' "$out" > "$work/result"
    with $profile check text result proof
    expect "check, $profile" 0 YES ''
    call encode --profile $profile text 3
    encoded=$out
    with $profile encode text 3
    expect "encode, $profile" 0 "$encoded" ''
    with 1 encode --profile $profile text 3
    expect "encode, --profile $profile goes first" 0 "$encoded" ''
    with $profile explain text result
    ok "explain, $profile" [ "$status $err" = '0 ' ]
done
call solve --profile 3 --proof proof text
printf '%s\n' "$out" > "$work/result"
with 3 encode --proof proof text 3
ok 'encode --proof, 3' [ "$status $err" = '0 ' ]
for profile in 1 2; do
    with $profile encode --proof proof text 3
    expect "encode --proof, $profile" 2 '' 'error: encode takes --proof only with --profile 3'
done
with '' encode text 3
expect 'empty, as without it' 0 "$first" ''

# What is no profile, and what is not looked at.
cp "$work/proof" "$work/before"
for value in 0 4 5 6 03 ' 3' 3x any three $'\377'; do
    fault='error: WMAX_PROFILE is not a profile from 1 to 3'
    with "$value" solve --proof proof --best best text
    expect "solve, $value" 2 '' "$fault"
    ok "solve, $value: nothing was written" cmp -s "$work/proof" "$work/before"
    ok "solve, $value: nothing is kept" [ ! -e "$work/best" ]
    with "$value" check text result proof
    expect "check, $value" 2 '' "$fault"
    with "$value" encode text 3
    expect "encode, $value" 2 '' "$fault"
    with "$value" check --profile 3 text result proof
    expect "check --profile 3, $value" 0 YES ''
    with "$value" check --profile any text result proof
    expect "check --profile any, $value" 0 YES ''
    with "$value" explain text
    ok "explain, $value" [ "$status $err" = '0 ' ]
done
for profile in 0 4 5 6 03 any ''; do
    call solve --profile "$profile" --proof proof --best best text
    ok "solve --profile $profile" [ "$status" = 2 -a -z "$out" -a -n "$err" ]
    ok "solve --profile $profile: nothing was written" cmp -s "$work/proof" "$work/before"
    ok "solve --profile $profile: nothing is kept" [ ! -e "$work/best" ]
    call encode --profile "$profile" text 3
    ok "encode --profile $profile" [ "$status" = 2 -a -z "$out" -a -n "$err" ]
    [ "$profile" != any ] || continue
    call check --profile "$profile" text result proof
    ok "check --profile $profile" [ "$status" = 2 -a -z "$out" -a -n "$err" ]
done

# A file for lower bounds is no option: a certificate of profile 3 proves them. Nor are core lines lines of a certificate.
for profile in 1 2 3; do
    call solve --profile $profile --lower bound --proof proof --best best text
    ok "--lower, profile $profile" [ "$status" = 2 -a -z "$out" -a -n "$(grep -e --lower <<< "$err")" ]
    ok "--lower, profile $profile: nothing was written" cmp -s "$work/proof" "$work/before"
    ok "--lower, profile $profile: nothing is kept" [ ! -e "$work/best" -a ! -e "$work/bound" ]
done
lines core 'core 3 1 3 4 0' '7 0 6 4 5 2 3 1 0'
for profile in 1 2 3 any; do
    call check --profile $profile text result core
    expect "a core line, check --profile $profile" 1 'NO LineForm 1' ''
done
call lower text core
expect 'a core line, lower' 1 'NO LineForm 1' ''
call encode --profile 3 --proof core text 3
expect 'a core line, encode' 2 '' 'error: line 1: LineForm'

# any: the certificates of each profile, of small instances and of the examples.
for profile in 1 2 3; do
    for name in text plain; do
        call solve --profile $profile --proof proof $name
        printf '%s\n' "$out" > "$work/result"
        call check --profile any $name result proof
        expect "any: $name in $profile" 0 YES ''
        head -n -1 "$work/proof" > "$work/short"
        call check --profile any $name result short
        ok "any: $name in $profile, cut short" [ "$status" = 1 -a "${out%% *}" = NO -a -z "$err" ]
    done
done
for lrat in examples/*.lrat; do
    name=${lrat%.lrat}
    call check --profile any "$PWD/$name.wcnf" "$PWD/$name.result" "$PWD/$lrat"
    expect "any: $name" 0 YES ''
done

# No certificate of any: the fault that stands furthest down, and of two such the one of the greatest profile.
every() { # NAME VERDICT: of text, result and proof
    local far=0 line of
    call check --profile any text result proof
    expect "$1" 1 "$2" ''
    for of in 3 2 1; do
        call check --profile $of text result proof
        line=${out##* }
        [ "$line" = 0 ] && line=1000000
        if [ "$line" -gt "$far" ]; then
            far=$line
            said=$out
        fi
    done
    ok "$1: it is the furthest" [ "$said" = "$2" ]
}
lines result 'o 3' 's OPTIMUM FOUND' 'v 10'
lines proof '6 0 5 4 2 3 1 0' '7 0 6 0'
every 'a line behind the end' 'NO TrailingLine 2'
: > "$work/proof"
every 'nothing' 'NO NoEmptyClause 0'
lines proof 'x'
every 'no line' 'NO LineForm 1'
lines proof 'form 1 3 1 0' 'cut 0' 'x'
every 'a line behind the end of forms and cuts' 'NO TrailingLine 3'
lines proof 'core 3 1 3 4 0'
every 'a core line' 'NO LineForm 1'
lines result 'o 4' 's OPTIMUM FOUND' 'v 10'
every 'another cost' 'NO CostWrong 1'
lines result 'o 3' 's SATISFIABLE' 'v 10'
every 'no claim' 'NO StatusWithoutProof 2'
lines result 's MAYBE'
every 'no result' 'NO ResultForm 1'
lines bad 'h 1'
call check --profile any bad result proof
expect 'a faulty text' 1 'NO Text 1' ''

cp examples/roster.wcnf "$work/text"
cp examples/roster.result "$work/result"
head -n -1 examples/roster.lrat > "$work/proof"
every 'it ends too soon' 'NO NoEmptyClause 0'
sed '9s/ .*/ 0 1 0/' examples/roster.lrat > "$work/proof"
call check --profile any text result proof
ok 'spoiled' [ "$status" = 1 -a "${out##* }" -ge 9 ]

# any reads PROOF more than once; FILE and RESULT may be pipes.
cp examples/roster.lrat "$work/proof"
refusal='error: check --profile any needs a regular file as PROOF, not a pipe'
out=$(cd "$work" && timeout 60 "$wmax" check --profile any text result <(cat proof) 2>&1)
ok 'a pipe' [ "$? $out" = "2 $refusal" ]
mkfifo "$work/fifo"
call check --profile any text result fifo
expect 'a FIFO that nobody writes to' 2 '' "$refusal"
call check --profile any text result /dev/null
expect 'a device' 2 '' "$refusal"
call check --profile any text result .
expect 'a folder' 2 '' "$refusal"
call check --profile any text result missing
expect 'a missing certificate' 3 '' 'error: Read missing'
call check --profile any missing result proof
expect 'a missing text' 3 '' 'error: Read missing'
call check --profile any text missing proof
expect 'a missing result' 3 '' 'error: Read missing'
out=$(cd "$work" && timeout 60 "$wmax" check --profile any <(cat text) <(cat result) proof 2>&1)
ok 'FILE and RESULT from pipes' [ "$? $out" = '0 YES' ]
out=$(cd "$work" && timeout 60 "$wmax" check --profile any text result /dev/stdin 2>&1 < proof)
ok 'standard input from a file' [ "$? $out" = '0 YES' ]
if [ -c /dev/full ]; then
    err=$(cd "$work" && "$wmax" check --profile any text result proof 2>&1 > /dev/full)
    ok 'a full output' [ "$? $err" = '3 error: Output' ]
fi
totals
