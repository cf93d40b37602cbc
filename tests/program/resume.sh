#!/usr/bin/env bash
# `wmax solve --resume`: a run goes on with the certificate that an earlier one left, however that
# ended, and comes to the optimum of a plain run. What cannot go on is refused, and stays as it was.
source "$(dirname "$0")/../lib"
RANDOM=7 # so that each run draws the same moments
limit=4611686018427387904

# made FAMILY SIZE SEED: the text is this instance
made() {
    awk -v family="$1" -v size="$2" -v seed="$3" -f bench/maxsat.awk > "$work/text"
}

# goes_on WORD..: what `call` does, of a run that goes on with `proof` and `best`
goes_on() {
    call solve --best best --proof proof --resume "$@" text
}

# lower: the lower bound that the certificate proves, 0 where there is none yet
lower() {
    if [ -e "$work/proof" ]; then "$wmax" lower "$work/text" "$work/proof" | sed -n 's/^at least //p'
    else echo 0; fi
}

# cost: of the last `o` line of what was printed
cost() {
    grep '^o ' <<< "$out" | tail -n 1 | cut -c 3-
}

# ended_lines FILE: its bytes up to the last line feed
ended_lines() {
    head -n "$(wc -l < "$1")" "$1"
}

# begins: whether the certificate begins with what was kept of it
begins() {
    cmp -s -n "$(stat -c %s "$work/kept")" "$work/kept" "$work/proof"
}

# keeps: keeps the lines of the certificate, of which there may be none yet
keeps() {
    touch "$work/proof"
    ended_lines "$work/proof" > "$work/kept"
}

# is_optimum COST: whether the run has printed an optimum of this cost, whose certificate checks
is_optimum() {
    [ "$status $(cost) $err" = "30 $1 " ] || return 1
    printf '%s\n' "$out" > "$work/result"
    [ "$("$wmax" check --profile 3 "$work"/{text,result,proof})" = YES ]
}

# Nothing is there to go on with: the bytes of a plain run.
made package_choice 40 1
call solve --profile 3 --proof plain text
wanted=("$status" "$out" "$err")
for begun in 'rm -f' 'truncate -s 0'; do
    rm -f "$work/best"
    $begun "$work/proof"
    goes_on
    expect "begun anew, $begun" "${wanted[@]}"
    ok "begun anew, $begun: the certificate" cmp -s "$work/proof" "$work/plain"
done
rm "$work/best"
printf 'form 1 0' > "$work/proof"
goes_on
expect 'a line that was torn' "${wanted[@]}"
ok 'a line that was torn: the certificate' cmp -s "$work/proof" "$work/plain"
for words in '' '--profile 3'; do
    for profile in '' 1 3; do
        rm "$work"/{best,proof}
        # shellcheck disable=SC2086
        out=$(cd "$work" && WMAX_PROFILE=$profile timeout 60 "$wmax" solve $words --best best --proof proof --resume text 2> .err)
        status=$?
        err=$(cat "$work/.err")
        expect "profile 3, $words, with $profile in the environment" "${wanted[@]}"
        ok "profile 3, $words, with $profile in the environment: the certificate" cmp -s "$work/proof" "$work/plain"
    done
done
lines proof 'form 1 0'
rm "$work/best"
call solve --profile 3 --best best --proof proof text
ok 'without --resume it begins anew' cmp -s "$work/proof" "$work/plain"

# Killed at sixty moments, some of them one after another: no bound is lost, and in the end it is
# the optimum. The moments are a part of the time that a plain run takes on this machine.
kills=0
wrong=0
ended=0
for instance in 'package_choice 300 1' 'diagnosis 300 1' 'set_cover 80 1' 'network 40 1' \
    'upgrade 600 1' 'roster 10 1' 'random 60 1' 'test_selection 300 1'; do
    # shellcheck disable=SC2086
    made $instance
    begun=${EPOCHREALTIME/./}
    call solve --profile 3 text
    took=$((${EPOCHREALTIME/./} - begun))
    optimum=$(cost)
    ok "$instance: an optimum" [ "$status" = 30 ]
    before=0
    rm -f "$work"/{best,proof}
    for ((moment = 1; moment <= 8 && kills < 60; moment++)); do
        if [ -e "$work/proof" ]; then keeps; else : > "$work/kept"; fi
        pause=$((took * (RANDOM % 100 + 1) / 100 + 1000))
        {
            (cd "$work" && exec "$wmax" solve --best best --proof proof --resume text > .out 2> .err) &
            sleep "$(printf '%d.%06d' $((pause / 1000000)) $((pause % 1000000)))"
            kill -KILL $!
            wait $!
        } 2> /dev/null
        [ $? = 30 ] && ended=$((ended + 1))
        kills=$((kills + 1))
        bound=$(lower)
        if [ -s "$work/.err" ] || [ -z "$bound" ] || [ "$bound" -lt "$before" ] ||
            [ "$bound" -gt "$optimum" ] || { [ -s "$work/kept" ] && ! begins; }; then
            wrong=$((wrong + 1))
            echo "$instance, killed after $pause us: $bound after $before, $(cat "$work/.err")"
        fi
        before=$bound
        # every third chain begins anew
        if [ $((moment % 3)) = 0 ]; then
            goes_on
            is_optimum "$optimum" || { wrong=$((wrong + 1)); echo "$instance: $status $(cost) $err"; }
            before=0
            rm -f "$work"/{best,proof}
        fi
    done
    goes_on
    ok "$instance: the optimum $optimum of $status $(cost) $err" is_optimum "$optimum"
    ok "$instance: what the certificate proves" [ "$(lower)" = "$optimum" ]
done
ok "killed at sixty moments: $kills, of which $ended came too late" [ $wrong = 0 -a $kills = 60 ]

# Stopped by its effort again and again: what is proved grows, and nothing of it is written twice.
for instance in 'package_choice 60 1' 'network 20 1' 'set_cover 60 1'; do
    # shellcheck disable=SC2086
    made $instance
    call solve --profile 3 text
    optimum=$(cost)
    rm -f "$work"/{best,proof}
    : > "$work/kept"
    before=0
    dearest=$limit
    wrong=0
    for ((effort = 0; effort < 1000000; effort = effort * 3 / 2 + 1)); do
        goes_on --conflicts $effort
        [ ! -s "$work/kept" ] || begins || { wrong=$((wrong + 1)); echo "$instance, $effort: its beginning changed"; }
        keeps
        bound=$(lower)
        [ "${bound:--1}" -ge "$before" ] || { wrong=$((wrong + 1)); echo "$instance: $bound after $before"; }
        before=$bound
        [ "$status" != 30 ] || break
        [ "$status" = 0 ] && continue
        [ "$status" = 10 -a "$(cost)" -le "$dearest" ] || wrong=$((wrong + 1))
        dearest=$(cost)
    done
    ok "$instance by little effort: the beginnings, the bounds and the costs" [ $wrong = 0 ]
    ok "$instance by little effort: the optimum" is_optimum "$optimum"
done

# Cut off at each byte: what is left of the lines goes on to the optimum. It is refused only where
# no solution is at hand that is as cheap as its cuts ask for, and then nothing is changed.
lacking=0

# each_cut NAME COST: of the certificate `whole`, with the result `found`, and with none
each_cut() {
    local name=$1 optimum=$2 size wrong=0 refused=0
    for size in $(seq 0 "$(stat -c %s "$work/whole")"); do
        head -c "$size" "$work/whole" > "$work/proof"
        keeps
        call solve --from found --proof proof --resume text
        { is_optimum "$optimum" && begins; } || { wrong=$((wrong + 1)); echo "$name, $size bytes: $status $(cost) $err"; }
        head -c "$size" "$work/whole" > "$work/proof"
        cp "$work/proof" "$work/before"
        call solve --proof proof --resume text
        if [ "$status" = 2 ]; then
            refused=$((refused + 1))
            [[ $out$err =~ ^error:\ --resume\ needs\ a\ solution\ that\ costs\ at\ most\ [0-9]+: ]] &&
                cmp -s "$work/proof" "$work/before" && grep -q '^cut' "$work/kept"
        else
            is_optimum "$optimum" && begins
        fi || { wrong=$((wrong + 1)); echo "$name, $size bytes, without a solution: $status $(cost) $err"; }
    done
    lacking=$((lacking + refused))
    ok "$name, cut off at each byte, $refused refused" [ $wrong = 0 ]
}
lines text 'h 1 2 0' '3 -1 0' '4 -2 0'
lines found 'o 3' 's OPTIMUM FOUND' 'v 10'
lines whole 'form 1 0' 'cut -2 0' '3 1 0 2 1 0' 'cut 0'
each_cut 'tea by hand' 3
lines whole 'count 1 1 2 0' '4 3 0 2 3 1 0' '3 d 4 0' 'form 1 3 -1 0' 'bound 2 0' 'form + 0' 'bound 3 0' 'cut 0'
each_cut 'tea by a count' 3
lines whole 'group -1 -2 0 1 0' 'form 1 3 -1 0' 'bound 3 0' 'cut 0'
each_cut 'tea by a group' 3
awk -v dir="$work" -v count=60 -f tests/program/random.awk > "$work/optima"
count=0
while read -r number wanted; do
    [ "$wanted" = none ] && continue
    call solve --profile 3 --proof proof "$number.wcnf"
    [ "$(stat -c %s "$work/proof")" -le 250 ] && grep -q '^cut .' "$work/proof" || continue
    printf '%s\n' "$out" > "$work/found"
    mv "$work/proof" "$work/whole"
    cp "$work/$number.wcnf" "$work/text"
    each_cut "instance $number" "$wanted"
    count=$((count + 1))
    [ $count -lt 4 ] || break
done < "$work/optima"
ok "$count small certificates of the program, $lacking beginnings lack a solution" [ $count = 4 -a $lacking -gt 0 ]

# A certificate from elsewhere: its bound counts, and lines are added behind its own.
lines text 'h 1 2 0' '3 -1 0' '4 -2 0' 'h 3 4 0' '2 -3 0' '2 -4 0'
lines best 's UNKNOWN'
printf 'form\t1 3 1 0\r\n\n  bound 3 0\n' > "$work/proof"
keeps
goes_on --conflicts 0
expect 'a bound from elsewhere, no effort' 0 's UNKNOWN' ''
ok 'a bound from elsewhere, no effort: it stays' [ "$(lower)" = 3 ]
goes_on --progress
ok 'a bound from elsewhere: it is told at once' [ -z "$(grep -E 'at least [012][,.]' <<< "$err")" ]
err=
ok 'a bound from elsewhere: the optimum' is_optimum 5
ok 'a bound from elsewhere: its lines stay' begins
data=tests/program/cuts
for name in package_choice_60_1 network_20_1 diagnosis_100_1; do
    cp $data/$name.wcnf "$work/text"
    optimum=$(sed -n 's/^o //p' $data/$name.result | tail -n 1)
    # its last line is the empty cut: as a bound it says what the form is worth
    { sed '$d' $data/$name.lrat; echo "bound $optimum 0"; } > "$work/proof"
    keeps
    ok "$name: the bound" [ "$(lower)" = "$optimum" ]
    cp "$work/proof" "$work/before"
    rm -f "$work/best"
    goes_on
    ok "$name, without a solution: $status $err" [ "$status$out" = 2 -a "$(wc -l <<< "$err")" = 1 ]
    ok "$name, without a solution: it stays" cmp -s "$work/proof" "$work/before"
    call solve --from "$PWD/$data/$name.result" --best best --proof proof --resume text
    ok "$name: the optimum of $status $(cost) $err" is_optimum "$optimum"
    ok "$name: its lines stay" begins
done

# keeps_best NAME STATUS WORD..: a run that is refused leaves the certificate, and the file of the best solution: one that is not
# there, is empty, has a solution or is that of another text
keeps_best() {
    local name=$1 wanted=$2 best
    shift 2
    for best in none '' $'o 4\ns SATISFIABLE\nv 01\n'; do
        rm -f "$work/best"
        [ "$best" = none ] || printf '%s' "$best" > "$work/best"
        cp "$work/proof" "$work/before"
        call solve --proof proof --best best --resume "$@" text
        ok "$name, best [$best]: $status $err" [ "$status" = "$wanted" -a -z "$(grep '^[osv] ' <<< "$out")" ]
        ok "$name, best [$best]: both stay" [ -z "$(cmp "$work/proof" "$work/before" 2>&1)" -a ! -e "$work/best.part" -a \
            "$(cat "$work/best" 2> /dev/null || echo none)" = "${best%$'\n'}" ]
    done
    rm -f "$work/best"
}

# What no search can go on with: a clause of the formula is deleted, ids leap, or each solution costs more than a cut is worth.
lines text 'h 1 2 0' '3 -1 0' '4 -2 0'
lines found 'o 3' 's SATISFIABLE' 'v 10'
while IFS='|' read -r line said; do
    printf 'form 1 0\n%b\nfor' "$line" > "$work/proof"
    cp "$work/proof" "$work/before"
    call solve --from found --proof proof --resume text
    expect "$line" 2 '' "error: $said"
    ok "$line: the certificate stays" cmp -s "$work/proof" "$work/before"
    keeps_best "$line" 2 --from found
done <<'ROWS'
1 d 1 0|no search can go on with the certificate that --proof names
bound 0 0\n1 d 1 0|no search can go on with the certificate that --proof names
1000000000000 1 2 0 1 0|no search can go on with the certificate that --proof names
4611686018427387903 1 2 0 1 0|no search can go on with the certificate that --proof names
form 1 1 1 0\ncut 1 0|--resume needs a solution that costs at most 1: name it by --best or --from
form 1 2 1 0\ncut 0|--resume needs a solution that costs at most 2: name it by --best or --from
cut 1 0|--resume needs a solution that costs at most 0: name it by --best or --from
cut 0|--resume needs a solution that costs at most 0: name it by --best or --from
cut -2 0\ncut 1 0|--resume needs a solution that costs at most 0: name it by --best or --from
form 1 3 1 0\nbound 3 0\nform 1 0\ncut 1 0|--resume needs a solution that costs at most 0: name it by --best or --from
ROWS

# A full disk: what stands there then goes on, once there is room.
made network 40 1
call solve --profile 3 --proof plain text
optimum=$(cost)
blocks=$(($(stat -c %s "$work/plain") / 1024))
ok "a certificate of $blocks blocks" [ $blocks -ge 64 ]
rm -f "$work"/{best,proof}
: > "$work/kept"
for part in 1 3 5 7; do
    err=$(cd "$work" && { trap '' XFSZ; ulimit -f $((blocks * part / 8))
        timeout 60 "$wmax" solve --best best --proof proof --resume text 2>&1 > .out; echo " $?"; } | cat)
    # a run that goes on may need fewer lines than a plain one
    [ $part != 1 -a "$err" = ' 30' ] && break
    ok "a full disk, $part eighths: $err" [ "$err" = $'error: ProofOutput\n 3' -a -z "$(grep -v '^o ' "$work/.out")" ]
    ok "a full disk, $part eighths: what it proves" [ -n "$(lower)" ]
    ok "a full disk, $part eighths: its lines stay" begins
    keeps
done
goes_on
ok "room on the disk: the optimum of $status $(cost) $err" is_optimum "$optimum"
ok 'room on the disk: the lines stay' begins

# A disk that is full, if this user may mount a small one: both files stand there.
unshare -rm mount -t tmpfs -o size=64k none /mnt 2> /dev/null && {
    rm -f "$work"/{best,proof}
    # shellcheck disable=SC2016
    (cd "$work" && unshare -rm bash -c 'mount -t tmpfs -o size=$(($1 * 512)) none /mnt || exit
        "$0" solve --best /mnt/best --proof /mnt/proof --resume text > .out 2> .err; echo $? > .full; cp /mnt/* .
        mount -o remount,size=1g /mnt
        "$0" solve --best /mnt/best --proof /mnt/proof --resume text > .again; echo $? > .status
        mv proof kept; cp /mnt/* .' "$wmax" $blocks)
    ok "a small disk: $(cat "$work"/.{full,err})" [ "$(cat "$work/.full")" = 3 -a "$(grep ^error "$work/.err")" = 'error: ProofOutput' ]
    ok 'a small disk: no end' [ -z "$(grep -v '^o ' "$work/.out")" ]
    status=$(cat "$work/.status")
    out=$(cat "$work/.again")
    err=
    ok "room on the small disk: the optimum of $status $(cost)" is_optimum "$optimum"
    ended_lines "$work/kept" > "$work/ended"
    mv "$work/ended" "$work/kept"
    ok 'room on the small disk: the lines stay' begins
}

# A device that fails behind each byte of what a run adds: then it goes on.
lines text 'h 1 2 0' '3 -1 0' '4 -2 0'
compiles -O1 -shared -fPIC -o "$work/device.so" tests/program/device.c
wrong=0
for ((at = 0; at < 1000; at++)); do
    printf 'form 1 0\nform 1' > "$work/proof"
    rm -f "$work"/{best,mark}
    (cd "$work" && DEVICE=proof DEVICE_AT=$at DEVICE_MARK=mark LD_PRELOAD="$work/device.so" \
        timeout 60 "$wmax" solve --proof proof --resume text > .out 2> .err)
    [ -e "$work/mark" ] || break
    [ "$(cat "$work/.err")" = 'error: ProofOutput' -a "$(head -n 1 "$work/proof")" = 'form 1 0' ] || wrong=$((wrong + 1))
    call solve --from <(printf 'o 3\ns SATISFIABLE\nv 10\n') --proof proof --resume text
    is_optimum 3 || { wrong=$((wrong + 1)); echo "a device that fails after $at bytes: $status $err"; }
done
ok "a device that fails at $at places" [ $wrong = 0 -a $at -gt 5 ]

# What is faulty, of another FILE or of another profile is refused, as `lower` refuses it.
# refused NAME: by the certificate `proof` of the text
refused() {
    local said
    lines best 'o 4' 's SATISFIABLE' 'v 01'
    cp "$work/best" "$work/kept"
    cp "$work/proof" "$work/before"
    call lower text proof
    said=$out
    goes_on
    expect "$1" 1 "$said" ''
    ok "$1: as lower says" [ "${said%% *}" = NO ]
    ok "$1: it stays" cmp -s "$work/proof" "$work/before"
    ok "$1: the best solution stays" cmp -s "$work/best" "$work/kept"
    keeps_best "$1" 1
}
while IFS='|' read -r proof name; do
    printf '%b\n' "$proof" > "$work/proof"
    refused "$name"
done <<'ROWS'
x|no line
form 1 3 1 0\nbound 4 0|a bound that is too great
form 1 3 1 0\nbound 3 0\n\nbound 3|a line without its 0
form 1 0\ncut 3 0|another variable
3 1 0 1 0|no conflict
2 1 2 0 9 0|a clause that is not there
1 1 2 0 1 0|an id that was there
form 1 3 1 0\ncut 0\nbound 3 0|a line behind the last
core 3 1 3 4 0|a word that no certificate has
ROWS
printf 'form 1 3 1 0\nx\nbound 3' > "$work/proof"
refused 'a faulty line before a torn one'
call solve --profile 3 --proof proof "$PWD/examples/roster.wcnf"
refused 'the certificate of another FILE'
call solve --profile 1 --proof proof text
refused 'a certificate of profile 1'
cp examples/vcover.lrat "$work/proof"
refused 'a long certificate of profile 1'
lines bad 'h 1'
cp "$work/proof" "$work/before"
call solve --proof proof --resume bad
expect 'a faulty text' 2 '' 'error: line 1: NoZero'
ok 'a faulty text: the certificate stays' cmp -s "$work/proof" "$work/before"
call solve --best new --proof new.lrat --resume bad
expect 'a faulty text, new files' 2 '' 'error: line 1: NoZero'
ok 'a faulty text: no file is new' [ ! -e "$work/new" -a ! -e "$work/new.part" -a ! -e "$work/new.lrat" ]
lines proof 'form 1 3 1 0'
cp "$work/proof" "$work/before"
lines best 'of an earlier run'
goes_on
expect 'no result' 2 '' 'error: --best names a file that is not a correct result for FILE'
ok 'no result: the certificate stays' cmp -s "$work/proof" "$work/before"
# a file of the best solution that is of no use
printf 'form 1 3 1 0\nform' > "$work/proof"
cp "$work/proof" "$work/before"
call solve --best missing/best --proof proof --resume text
expect 'no folder' 3 '' 'error: --best cannot be written'
ok 'no folder: the certificate stays' cmp -s "$work/proof" "$work/before"
for path in proof ./proof text; do
    call solve --best $path --proof proof --resume text
    expect "--best $path" 2 '' 'error: --best names another file of the run, or something other than a regular file'
    ok "--best $path: the certificate stays" cmp -s "$work/proof" "$work/before"
done
call solve --best new --proof new --resume text
expect 'two names of one new file' 2 '' 'error: --best names another file of the run, or something other than a regular file'
ok 'two names of one new file: there is none' [ ! -e "$work/new" -a ! -e "$work/new.part" ]
# nothing is known yet: a new file says so once there is a search
lines proof 'form 1 3 1 0'
cp "$work/proof" "$work/before"
call solve --best new --proof proof --resume --conflicts 0 text
expect 'no effort' 0 's UNKNOWN' ''
ok 'no effort: the certificate stays' cmp -s "$work/proof" "$work/before"
ok 'no effort: what is kept' [ "$(cat "$work/new")" = 's UNKNOWN' -a ! -e "$work/new.part" ]
lines wrong 'o 3' 's SATISFIABLE' 'v 01'
call solve --from wrong --proof proof --resume text
expect 'a wrong result' 1 'NO CostWrong 1' ''
ok 'a wrong result: the certificate stays' cmp -s "$work/proof" "$work/before"
cp "$work/text" "$work/before"
call solve --proof text --resume text
ok "the certificate is FILE: $status $err" [ "$status$out" = 3 -o "$status$out" = 2 ]
ok 'the certificate is FILE: it stays' cmp -s "$work/text" "$work/before"
mkdir "$work/folder"
call solve --proof folder --resume text
ok "a folder: $status $err" [ "$status$out" = 3 ]
mkfifo "$work/fifo"
for path in fifo /dev/null /dev/full; do
    [ -c $path -o -p "$work/$path" ] || continue
    call solve --proof $path --resume text
    expect "$path, which keeps nothing" 2 '' 'error: --resume needs a regular file as PATH of --proof'
done

# Where it is a mistake to ask for it.
# mistaken NAME MESSAGE WORD..: status 2, a message that begins so, and nothing is touched
mistaken() {
    local name=$1 said=$2
    shift 2
    lines proof 'form 1 3 1 0' 'bound 3'
    cp "$work/proof" "$work/before"
    rm -f "$work/best"
    call solve --best best "$@" text
    ok "$name: $status $out $err" [ "$status$out" = 2 -a "${err#"error: $said"}" != "$err" ]
    ok "$name: nothing is touched" [ "$(cmp "$work/proof" "$work/before" 2>&1)" = '' -a ! -e "$work/best" ]
}
mistaken 'no certificate' 'solve takes --resume only with --proof' --resume
mistaken 'no certificate, profile 3' 'solve takes --resume only with --proof' --profile 3 --resume
mistaken 'profile 1' 'solve takes --resume only with --profile 3' --profile 1 --proof proof --resume
mistaken 'profile 2' 'solve takes --resume only with --profile 3' --profile 2 --proof proof --resume
mistaken 'twice' '' --resume --resume --proof proof
mistaken 'with a word' '' --resume=yes --proof proof

# A certificate that has ended says all: the answer comes at once, and PATH stays. A solution is told for a unit of the effort,
# as ever.
# at_once NAME STATUS STDOUT WORD..
at_once() {
    local name=$1 wanted=$2 said=$3
    shift 3
    cp "$work/proof" "$work/before"
    for effort in '' '--conflicts 1' '--time-limit 1e-9'; do
        # shellcheck disable=SC2086
        call solve --proof proof --resume "$@" $effort text
        expect "$name $effort" "$wanted" "$said" ''
        ok "$name $effort: the certificate stays" cmp -s "$work/proof" "$work/before"
    done
}
# lacks NAME WORD..: no solution of the optimum is at hand
lacks() {
    local name=$1
    shift
    cp "$work/proof" "$work/before"
    call solve --proof proof --resume "$@" text
    expect "$name" 2 '' "error: --resume needs a solution that costs at most $optimum: name it by --best or --from"
    ok "$name: the certificate stays" cmp -s "$work/proof" "$work/before"
}
made package_choice 60 1
rm -f "$work"/{best,proof}
goes_on
optimum=$(cost)
wanted=$(tail -n 3 <<< "$out")
at_once 'an optimum, kept' 30 "$wanted" --best best
ok 'an optimum, kept: it stays' [ "$(cat "$work/best")" = "$wanted" ]
cp "$work/best" "$work/found"
at_once 'an optimum, from elsewhere' 30 "$wanted" --from found
lacks 'an optimum, without a solution'
call solve --proof proof --resume --best best --conflicts 0 text
expect 'an optimum, without effort' 0 's UNKNOWN' ''
ok 'an optimum, without effort: the certificate stays' cmp -s "$work/proof" "$work/before"
ok 'an optimum, without effort: the solution stays' [ "$(cat "$work/best")" = "$wanted" ]
lines unknown 's UNKNOWN'
lacks 'an optimum, without the solution' --from unknown
call solve --profile 3 --conflicts 2 text
ok 'a dearer solution' [ "$status" = 10 -a "$(cost)" -gt "$optimum" ]
printf '%s\n' "$out" > "$work/dear"
lacks 'an optimum, with a dearer solution' --from dear
cp "$work/dear" "$work/kept"
lacks 'an optimum, with a dearer solution kept' --best kept
ok 'the dearer solution stays' cmp -s "$work/dear" "$work/kept"
call solve --from found --best kept --proof proof --resume text
expect 'an optimum, the cheaper of two solutions' 30 "$wanted" ''
ok 'an optimum, the cheaper of two solutions: it is kept' [ "$(cat "$work/kept")" = "$wanted" ]
printf '%s' 'form' >> "$work/proof"
call solve --proof proof --resume --best best text
expect 'an optimum, and a torn line' 30 "$wanted" ''
lines text 'h 1 2 0' 'h -1 2 0' 'h 1 -2 0' 'h -1 -2 0'
lines proof '5 2 0 1 2 0' '6 0 5 3 4 0'
at_once 'no solution' 20 's UNSATISFIABLE'
call solve --proof proof --resume --conflicts 0 text
expect 'no solution, without effort' 20 's UNSATISFIABLE' ''
ok 'no solution, without effort: the certificate stays' cmp -s "$work/proof" "$work/before"
printf '%s\n' "$out" > "$work/result"
call check --profile 3 text result proof
expect 'no solution: it checks' 0 YES ''
head -n 1 "$work/before" > "$work/proof"
call solve --proof proof --resume text
expect 'no solution, which was not shown yet' 20 's UNSATISFIABLE' ''
call check --profile 3 text result proof
expect 'no solution, which was not shown yet: it checks' 0 YES ''
lines text 'h 1 0' '3 2 0' '4 3 0'
lines found 'o 0' 's SATISFIABLE' 'v 111'
lines proof 'form 1 0'
call solve --from found --proof proof --resume text
ok 'no cost' is_optimum 0
# nothing can cost less than nothing, whatever a certificate says: where it does not show that, it is written anew
for lines in 'form 1 0\ncut -2 0\n' 'form 1 0\ncut -2 0\nform' 'form 1 5 1 0\ncut 0\n'; do
    [[ $lines = *' 5 '* ]] && lines text 'h 1 2 3 0' '3 2 0' '4 3 0'
    printf '%b' "$lines" > "$work/proof"
    cp "$work/proof" "$work/kept"
    call solve --from found --proof proof --resume text
    ok "no cost, $lines" is_optimum 0
    ok "no cost, $lines: it is written anew" [ "$(begins && echo stays)" = '' ]
done
# else it stays
lines text 'h 1 0' '3 2 0' '4 3 0'
rm -f "$work/best"
wanted=$'o 0\ns OPTIMUM FOUND\nv 111'
lines free '2 1 0 1 0' 'form 1 0' 'cut -2 0' 'cut 0'
cp "$work/free" "$work/proof"
at_once 'no cost, which was shown' 30 "$wanted" --from found
call solve --from found --best best --proof proof --resume --progress text
ok 'no cost, which was shown: it is told and kept' [ "$status$out" = "30$wanted" -a "$(cat "$work/best")" = "$wanted" ]
err=
ok 'no cost, which was shown: it checks' is_optimum 0
ok 'no cost, which was shown: it stays' cmp -s "$work/free" "$work/proof"
call solve --from found --proof proof --resume --conflicts 0 text
expect 'no cost, without effort' 0 's UNKNOWN' ''
ok 'no cost, without effort: it stays' cmp -s "$work/free" "$work/proof"
printf form >> "$work/proof"
call solve --from found --proof proof --resume text
expect 'no cost, and a torn line' 30 "$wanted" ''
ok 'no cost, and a torn line: that is cut off' cmp -s "$work/free" "$work/proof"
optimum=0
lacks 'no cost, without a solution'
totals
