#!/usr/bin/env bash
# Outputs that are full or closed, and each beginning of a text, a result and a certificate.
source "$(dirname "$0")/../lib"

fails() { # NAME FAULT: what was run ended with this fault
    ok "$1: $status [$err]" test "$status" = 3 -a "$err" = "error: $2"
}

lines text 'h 1 2 0' '3 -1 0' '4 -2 0'
lines result 'o 3' 's OPTIMUM FOUND' 'v 10'
lines proof '6 0 5 4 2 3 1 0'
lines cuts 'form 1 3 1 0' 'cut 0'
for words in 'solve text' 'solve --profile 3 text' 'check text result proof' 'check --profile 3 text result cuts' 'lower text cuts' \
    'encode text 3' 'encode --profile 3 --proof cuts text 3' 'explain text' 'explain text result' 'explain text result cuts' \
    '--help' 'solve --help' '--version'; do
    # shellcheck disable=SC2086
    if [ -c /dev/full ]; then
        err=$(cd "$work" && timeout 60 "$wmax" $words 2>&1 > /dev/full)
        status=$?
        fails "$words, a full output" Output
    fi
    # shellcheck disable=SC2086
    err=$(cd "$work" && timeout 60 "$wmax" $words 2>&1 >&-)
    status=$?
    fails "$words, a closed output" Output
    # shellcheck disable=SC2086
    err=$(cd "$work" && { { sleep 0.3; timeout 60 "$wmax" $words 2>&3; echo $? > .status; } | :; } 3>&1)
    status=$(cat "$work/.status")
    ok "$words, a closed pipe: $status [$err]" test "$status" = 141 -a -z "$err"
done
if [ -c /dev/full ]; then
    call solve --proof /dev/full text
    fails 'a full certificate' ProofOutput
    ok 'a full certificate, no s line' test -z "$(grep -v '^o ' <<< "$out")"
fi
mkfifo "$work/fifo"
head -c 10 "$work/fifo" > /dev/null &
call solve --proof fifo "$PWD/examples/pigeons10.wcnf"
fails 'a certificate in a closed pipe' ProofOutput
ok 'a certificate in a closed pipe, no s line' test -z "$(grep -v '^o ' <<< "$out")"
wait
call check text result "$work"
fails 'a certificate that is a folder' "Read $work"
call solve "$work"
fails 'a text that is a folder' "Read $work"

# A device that fails after each number of bytes, by an error or by taking nothing, until it meets no failure: what is left is a
# beginning of the plain output, with the whole certificate before the first byte of the `s` line. The same is left by one that
# fails once and then works: nothing that failed is tried again.
device() { # AT WORD..: the program with a device that fails after so many bytes
    local at=$1
    shift
    rm -f "$work/mark" "$work/proof"
    (cd "$work" && DEVICE_AT=$at DEVICE_MARK=mark LD_PRELOAD="$work/device.so" timeout 60 "$wmax" "$@" > .out 2> .err < /dev/null)
    status=$?
    err=$(cat "$work/.err")
}

begins() { # AT FILE: the first bytes of the plain one, and no more
    touch "$work/$2"
    head -c "$1" "$work/plain/$2" | cmp -s - "$work/$2"
}

left_well() { # DEVICE AT COMMAND: what stands after the failure, of which there was one
    case $1 in
        out)
            [ "$err" = 'error: Output' ] && begins "$2" .out &&
                { [ "$3" != solve ] || [ "$2" -le "$lines_end" ] || cmp -s "$work/proof" "$work/plain/proof"; } ;;
        proof) [ "$err" = 'error: ProofOutput' ] && begins "$2" proof && begins "$lines_end" .out ;;
        text) [[ $err =~ ^error:\ Read\ (text|result|given|cuts)$ ]] && begins 0 .out && begins 0 proof ;;
    esac && [ "$status" = 3 ] && [ "$(stat -c %s "$work/mark")" = 1 ]
}

each() { # DEVICE WORD..
    local device=$1 how at wrong=0 count=0
    shift
    rm -rf "$work/plain"
    mkdir "$work/plain"
    DEVICE='' device 0 "$@"
    mv "$work/.out" "$work/plain"
    touch "$work/proof"
    mv "$work/proof" "$work/plain"
    lines_end=$(grep '^o ' "$work/plain/.out" | wc -c)
    for how in error none 'error once' 'none once'; do
        [ "$device ${how% *}" != 'text none' ] || continue # no bytes are the end of a text
        for ((at = 0; at < 10000; at++)); do
            DEVICE=$device DEVICE_FAILS=$how device $at "$@"
            [ -e "$work/mark" ] || break
            count=$((count + 1))
            left_well "$device" $at "$1" || { wrong=$((wrong + 1)); echo "$device after $at bytes, $how: $status [$err]"; }
        done
    done
    ok "$*: $device fails at $count places" test $wrong = 0 -a $count -gt 5
}

compiles -O1 -shared -fPIC -o "$work/device.so" tests/program/device.c
if [ -e "$work/device.so" ]; then
    for text in 'h 1 2 0\n3 -1 0\n4 -2 0\n' 'h 1 -1 0\n2 1 1 0\n3 -1 0\n'; do
        printf "$text" > "$work/text"
        for device in out proof text; do
            each $device solve --proof proof text
            each $device solve --profile 3 --proof proof text
        done
    done
    lines text 'h 1 2 0' '3 -1 0' '4 -2 0'
    lines given '6 0 5 4 2 3 1 0'
    each text check text result given
    each out encode text 3
    each text encode text 3
    each out encode --profile 3 --proof cuts text 3
    each text check --profile 3 text result cuts
    for device in out text; do each $device lower text cuts; done
    lines given '6 0 1 0'
    each out check text result given
fi
lines text 'h 1 2 0' '3 -1 0' '4 -2 0'
lines proof '6 0 5 4 2 3 1 0'

# Each beginning of a file: never a crash, and never YES but for the whole of it, less its last line feed.
beginnings() { # NAME FILE: of text, result and proof
    local name=$1 file=$2 size n wrong=0 yes=0
    size=$(stat -c %s "$work/$file")
    cp "$work/$file" "$work/whole"
    for n in $(seq 0 "$size"); do
        head -c "$n" "$work/whole" > "$work/$file"
        call check text result proof
        case "$status $out" in
            '0 YES') yes=$((yes + 1)); [ "$n" -ge $((size - 1)) ] || wrong=$((wrong + 1)) ;;
            '1 NO '*) ;;
            *) wrong=$((wrong + 1)); echo "$n bytes of $name: $status [$out] [$err]" ;;
        esac
        [ -z "$err" ] || wrong=$((wrong + 1))
    done
    cp "$work/whole" "$work/$file"
    ok "$name: $size beginnings, $yes accepted" test $wrong = 0 -a $yes -ge 1
}

beginnings 'the text of one of two' text
beginnings 'the result of one of two' result
beginnings 'the certificate of one of two' proof
lines text 'p wcnf 2 3 10' '10 1 2 0' '3 -1 0' '4 -2 0'
beginnings 'the text of the older form' text
lines text 'h 1 2 0' 'h -1 2 0' 'h 1 -2 0' 'h -1 -2 0'
lines result 's UNSATISFIABLE'
lines proof '5 2 0 1 2 0' '6 0 5 3 4 0'
beginnings 'RUP lines' proof
lines proof '5 3 1 0 0' '6 -3 2 0 -5 1 0' '7 2 0 1 2 0' '8 0 7 3 4 0'
beginnings 'RAT lines' proof
beginnings 'a text without a solution' text
for name in bigw packages timetable vcover; do
    cp "examples/$name.wcnf" "$work/text"
    cp "examples/$name.result" "$work/result"
    cp "examples/$name.lrat" "$work/proof"
    [ "$name" = bigw ] || beginnings "the certificate of $name" proof
    beginnings "the text of $name" text
    beginnings "the result of $name" result
done
printf 'h 1 2 0\n3 -1' > "$work/text"
call solve text
expect 'a clause without its 0' 2 '' 'error: line 2: NoZero'

# What each beginning of two texts comes to: a formula, or a fault and its line.
each_beginning() { # NAME, then 'FROM TO ANSWER' a line: of text
    local name=$1 from to wanted n wrong=0 next=0
    cp "$work/text" "$work/whole"
    while read -r from to wanted; do
        [ "$from" = $next ] || wrong=$((wrong + 1))
        next=$((to + 1))
        for n in $(seq "$from" "$to"); do
            head -c "$n" "$work/whole" > "$work/text"
            call encode text 0
            case "$status $wanted" in
                '0 ok') [ -z "$err" ] && continue ;;
                2*) [ -z "$out" ] && [ "$err" = "error: $wanted" ] && continue ;;
            esac
            wrong=$((wrong + 1))
            echo "$n bytes of $name: $status [$out] [$err]"
        done
    done
    ok "$name: each beginning" test $wrong = 0 -a $next = $(($(stat -c %s "$work/whole") + 1))
}
lines text 'h 1 2 0' '3 -1 0' '4 -2 0'
each_beginning 'one of two' <<'ROWS'
0 0 ok
1 6 line 1: NoZero
7 8 ok
9 10 line 2: NoZero
11 11 line 2: Literal
12 13 line 2: NoZero
14 15 ok
16 17 line 3: NoZero
18 18 line 3: Literal
19 20 line 3: NoZero
21 22 ok
ROWS
printf 'c x\r\n\r\nh -1 0\r\n7 1 0' > "$work/text"
each_beginning 'CR LF' <<'ROWS'
0 5 ok
6 6 line 2: FirstToken
7 7 ok
8 9 line 3: NoZero
10 10 line 3: Literal
11 12 line 3: NoZero
13 13 ok
14 14 line 3: Literal
15 15 ok
16 19 line 4: NoZero
20 20 ok
ROWS

# A beginning of a certificate ends within a line, which has then no form, or with whole lines, of which the last one alone
# adds the empty clause.
each_certificate() { # NAME LINE..: over the four clauses that no assignment satisfies
    local name=$1 line n before='' wanted wrong=0 count=0
    shift
    for line; do
        count=$((count + 1))
        for n in $(seq 0 $((${#line} + 1))); do
            case $n in
                0) wanted='NO NoEmptyClause 0' ;;
                ${#line} | $((${#line} + 1))) wanted='NO NoEmptyClause 0'; [ $count -lt $# ] || wanted=YES ;;
                *) wanted="NO LineForm $count" ;;
            esac
            { printf '%s' "$before"; printf '%s\n' "$line" | head -c "$n"; } > "$work/proof"
            call check text result proof
            [ "$out" = "$wanted" ] || { wrong=$((wrong + 1)); echo "$name, line $count, $n bytes: $out"; }
        done
        before+=$line$'\n'
    done
    ok "$name: each beginning" test $wrong = 0
}
lines text 'h 1 2 0' 'h -1 2 0' 'h 1 -2 0' 'h -1 -2 0'
lines result 's UNSATISFIABLE'
each_certificate 'RUP lines' '5 2 0 1 2 0' '6 0 5 3 4 0'
each_certificate 'a definition' '5 3 1 0 0' '6 -3 2 0 -5 1 0' '7 2 0 1 2 0' '8 0 7 3 4 0'

# The certificates of four clauses that no assignment satisfies.
lines text 'h 1 2 0' 'h -1 2 0' 'h 1 -2 0' 'h -1 -2 0'
lines result 's UNSATISFIABLE'
while IFS='|' read -r proof wanted; do
    printf '%b' "$proof" > "$work/proof"
    call check text result proof
    expect "$proof" 1 "NO $wanted" ''
done <<'ROWS'
5 2 0 1 2 0\n6 0 5 3 4|LineForm 2
4611686018427387904 1 0 0|LineForm 1
5 -0 0 0|LineForm 1
5 134217728 0 0|ClauseForm 1
5 134217727 0 0|NoEmptyClause 0
ROWS

totals
