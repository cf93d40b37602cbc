#!/usr/bin/env bash
# `wmax lower`: what certificates of forms and cuts prove by themselves, whole, in pieces, cut off and spoiled; and that no bound is
# above the least cost that a search over all assignments finds.
source "$(dirname "$0")/../lib"
data=$PWD/tests/program/cuts

# told NAME WANTED INSTANCE CERTIFICATE
told() {
    call lower "$3" "$4"
    case $2 in NO*) expect "$1" 1 "$2" '' ;; *) expect "$1" 0 "$2" '' ;; esac
}

for name in package_choice_60_1 network_20_1 diagnosis_100_1; do
    text=$data/$name.wcnf
    count=$(wc -l < "$data/$name.lrat")
    optimum="at least $(sed -n 's/^o //p' "$data/$name.result" | tail -n 1)"
    told "$name" "$optimum" "$text" "$data/$name.lrat"
    sed 's/$/\r/' "$data/$name.lrat" > "$work/proof"
    told "$name with CR LF" "$optimum" "$text" proof
    sed 's/^/\n \t\n/' "$data/$name.lrat" > "$work/proof"
    told "$name with lines without a token" "$optimum" "$text" proof
    mkfifo "$work/fifo"
    cat "$data/$name.lrat" > "$work/fifo" &
    told "$name by a pipe" "$optimum" "$text" fifo
    rm "$work/fifo"
    # no line before the last one says a bound, and what no line feed ends is not read
    printf '%s' "$(cat "$data/$name.lrat")" > "$work/proof"
    told "$name without a last line feed" 'at least 0' "$text" proof
    sed '$d' "$data/$name.lrat" > "$work/proof"
    told "$name without its last line" 'at least 0' "$text" proof
    sed '$p' "$data/$name.lrat" > "$work/proof"
    told "$name with its last line twice" "NO TrailingLine $((count + 1))" "$text" proof
    sed '1s/ 0$/ 0 0/' "$data/$name.lrat" > "$work/proof"
    told "$name with a second 0" 'NO LineForm 1' "$text" proof
    sed '/^form/d' "$data/$name.lrat" > "$work/proof"
    call lower "$text" proof
    ok "$name without its forms: $out" [ "$status" = 1 -a "${out% *}" = 'NO LineName' ]
    # cut off behind each line
    wrong=0
    for ((line = 1; line < count; line += 9)); do
        head -n $line "$data/$name.lrat" > "$work/proof"
        call lower "$text" proof
        [ "$status $out" = '0 at least 0' ] || wrong=$((wrong + 1))
    done
    ok "$name, cut off behind lines" [ $wrong = 0 ]
done

# in small pieces, each by a write of its own
trickle() {
    local text
    text=$(cat "$1"; echo .)
    text=${text%.}
    while [ -n "$text" ]; do
        printf '%s' "${text:0:7}"
        text=${text:7}
    done
}
mkfifo "$work/fifo"
trickle "$data/package_choice_60_1.lrat" > "$work/fifo" &
told 'in small pieces' "at least $(sed -n 's/^o //p' "$data/package_choice_60_1.result" | tail -n 1)" \
    "$data/package_choice_60_1.wcnf" fifo
rm "$work/fifo"

# Bounds up to the optimum, and each fault with its line. The lines are those that a line feed ends.
lines tea 'h 1 2 0' '3 -1 0' '4 -2 0'
lines four 'h 1 2 0' 'h -1 2 0' 'h 1 -2 0' 'h -1 -2 0' '7 3 0'
while IFS='|' read -r text proof wanted; do
    printf '%b\n' "$proof" > "$work/proof"
    told "$text: $proof" "$wanted" $text proof
done <<'ROWS'
tea||at least 0
tea|\n \t\n|at least 0
tea|form 1 3 1 0|at least 0
tea|form 1 3 1 0\nbound 3 0|at least 3
tea|form 1 3 1 0\nbound 2 0|at least 2
tea|form 1 3 1 0\nbound 0 0|at least 0
tea|form 1 3 1 0\nbound 3 0\nbound 2 0|at least 3
tea|form 1 3 1 0\nbound 3 0\nform 1 0|at least 3
tea| form\t1  3 1 0 \r\n\n bound 3\t0|at least 3
tea|form 2 6 1 0\nbound 3 0|at least 3
tea|form 2 5 1 0\nbound 3 0|at least 3
tea|form 1 3 1 0\ncut 0|at least 3
tea|form 1 2 1 0\ncut 0|at least 2
tea|form 1 5 1 0\ncut 0|at least 2
tea|form 1 0\ncut 0|at least 0
tea|form 1 3 1 0\nbound 3 0\nform 1 2 1 0\ncut 0|at least 3
tea|form 1 0\ncut -2 0\n3 1 0 2 1 0\ncut 0|at least 3
tea|form 1 0\ncut -2 0\n3 1 0 2 1 0\nbound 3 0|at least 3
tea|form 1 0\ncut -1 0\nbound 3 0|NO CutWorth 3
tea|form 1 0\ncut -1 0\n3 2 0 2 1 0\nbound 4 0|at least 3
tea|form 1 0\ncut -1 0\n3 2 0 2 1 0\nbound 5 0|NO CutWorth 4
tea|form 1 0\ncut -2 0\ncut -1 0\n4 0 2 3 1 0|at least 3
tea|form 1 0\ncut 1 0\nbound 0 0|at least 0
tea|form 1 0\ncut 1 0\n3 0 1 2 0|NO HintNotUnit 3
tea|count 1 1 2 0\n4 3 0 2 3 1 0\nform 1 3 -1 0\nbound 3 0|at least 3
tea|group -1 -2 0 1 0\nform 1 3 -1 0\ncut 0|at least 3
tea|form 1 3 1 0\n1 d 1 0\nbound 3 0|at least 3
tea|form 1 3 1 0\nbound 4 0|NO CutWorth 2
tea|form 1 3 1 0\nbound 3 0\nbound 4 0|NO CutWorth 3
tea|form 1 3 1 0\nbound 4611686018427387904 0|NO LineForm 2
tea|form 0 1 1 0\nbound 1 0|NO CutWorth 2
tea|form 0 1 1 0\ncut 0|NO CutWorth 2
tea|bound 0 0|NO LineName 1
tea|cut 0|NO LineName 1
tea|form + 1 1 0|NO LineName 1
tea|form 1 0\ncut 3 0|NO LineName 2
tea|form 1 1 2 0|NO LineName 1
tea|form 1 3 1|NO LineForm 1
tea|x|NO LineForm 1
tea|core 3 1 3 4 0\n7 0 6 4 5 2 3 1 0|NO LineForm 1
tea|form 1 3 1 0\nbound 3 0\ncore 3 1 3 4 0|NO LineForm 3
tea|form 1 3 1 0\ncut 0\nbound 3 0|NO TrailingLine 3
tea|2 1 0 1 0|NO NoConflict 1
tea|2 1 2 0 9 0|NO DeadId 1
tea|2 d 9 0|NO DeadId 1
tea|1 1 2 0 1 0|NO IdOrder 1
tea|2 1 2 0 1 1 0|NO HintAfterConflict 1
four|5 2 0 1 2 0\n6 0 5 3 4 0|no solution
four|\n5 2 0 1 2 0\n \n6 0 5 3 4 0\n|no solution
four|form 1 0\n5 2 0 1 2 0\n6 0 5 3 4 0|no solution
four|5 2 0 1 2 0|at least 0
four|5 2 0 1 3 0\n6 0 5 3 4 0|NO HintNotUnit 1
four|form 1 0\ncut 3 0\n6 2 0 1 2 0\n7 0 6 3 4 0|at least 7
ROWS
printf 'form 1 3 1 0\nbound 2 0\nbound 3 0' > "$work/proof"
told 'a last line that no line feed ends' 'at least 2' tea proof
printf 'form 1 3 1 0\nbound 2 0\nbound 9' > "$work/proof"
told 'a last line that is cut off' 'at least 2' tea proof
: > "$work/proof"
told 'an empty certificate' 'at least 0' tea proof
lines proof 'form 1 3 1 0' 'bound 3 0' 'form 1 0' 'cut -2 0' '3 1 0 2 1 0' 'cut 0'
wrong=0
for size in $(seq 0 "$(wc -c < "$work/proof")"); do
    head -c "$size" "$work/proof" > "$work/beginning"
    call lower tea beginning
    wanted='at least 0'
    [ "$size" -lt 23 ] || wanted='at least 3'
    [ "$status $out" = "0 $wanted" ] || wrong=$((wrong + 1))
done
ok 'cut off at each byte' [ $wrong = 0 ]

# The certificate of an optimum in another profile, and one without a solution.
told 'an optimum in profile 1' 'NO DeadId 1' "$PWD/examples/vcover.wcnf" "$PWD/examples/vcover.lrat"
call solve --profile 3 --proof proof four
told 'the certificate of UNSATISFIABLE' 'no solution' four proof
lines text '7 3 0'
lines proof '1 0 0'
told 'no hard clause' 'NO NoConflict 1' text proof

# Texts and files.
lines text 'h 1 0' 'h 1 x 0'
told 'a faulty text' 'NO Text 2' text proof
: > "$work/empty"
told 'an empty text' 'NO NoConflict 1' empty proof
call lower text missing
expect 'a certificate that is not there' 3 '' 'error: Read missing'
call lower missing proof
expect 'a text that is not there' 3 '' 'error: Read missing'
call lower text "$work"
expect 'a certificate that is a folder, with a faulty text' 1 'NO Text 2' ''
call lower tea "$work"
expect 'a certificate that is a folder' 3 '' "error: Read $work"
call lower text
ok 'a word too few' [ "$status $out" = '2 ' ]
call lower text proof proof
ok 'a word too many' [ "$status $out" = '2 ' ]
call lower --profile 3 tea proof
ok 'a profile' [ "$status $out" = '2 ' ]
lines proof 'form 1 3 1 0' 'bound 3 0'
out=$(cd "$work" && WMAX_PROFILE=9 "$wmax" lower tea proof 2> .err)
status=$?
err=$(cat "$work/.err")
expect 'WMAX_PROFILE is not looked at' 0 'at least 3' ''
lines proof 'form 1 3 1 0' 'bound 4 0'
out=$(cd "$work" && { cat proof; yes 2> /dev/null; } | timeout 20 "$wmax" lower tea /dev/stdin 2> .err)
status=$?
err=$(cat "$work/.err")
expect 'what follows a faulty line is not read' 1 'NO CutWorth 2' ''

# Random instances: the certificate of an optimum gives just that, and no change of it more.
is_at_most() { # WANTED
    local said
    said=$("$wmax" lower "$text" "$work/changed")
    case $said in
        'at least '*) [ "$1" = none ] || [ "${said#at least }" -le "$1" ] ;;
        'no solution') [ "$1" = none ] ;;
        NO*) true ;;
        *) false ;;
    esac
}
awk -v dir="$work" -v count=100 -f tests/program/random.awk > "$work/wanted"
cuts=0
while read -r number wanted; do
    text=$work/$number.wcnf
    "$wmax" solve --profile 3 --proof "$work/proof" "$text" > /dev/null 2>&1
    case $wanted in
        none) told "instance $number" 'no solution' "$text" proof ;;
        *) told "instance $number" "at least $wanted" "$text" proof ;;
    esac
    cuts=$((cuts + $(grep -c '^cut .' "$work/proof")))
    for change in 's/^form 1 /form 2 /' 's/^form 1 0$/form 0 0/' 's/^form + /form 1 /' '1d' '$d' '1{p}' 's/^\(form [0-9+]*\) [0-9]*/\1 9/' \
        's/^\(cut\) [-0-9]* /\1 /' 's/^cut -/cut /' '$!N;s/\(.*\)\n\(.*\)/\2\n\1/' '/^cut/d' '/^form/d' 's/^bound .*/bound 99 0/' \
        's/^cut .*/cut 0/'; do
        sed "$change" "$work/proof" > "$work/changed"
        ok "instance $number, $change" is_at_most "$wanted"
    done
done < "$work/wanted"
ok "they have cuts: $cuts" [ "$cuts" -gt 50 ]
totals
