#!/usr/bin/env bash
# `wmax check --profile 3`: certificates of forms and cuts, whole, in pieces, spoiled and hostile; and what the other commands
# make of this profile.
source "$(dirname "$0")/../lib"

# judge NAME WANTED INSTANCE CERTIFICATE: of the instance's text and result
judge() {
    call check --profile 3 "$3.wcnf" "$3.result" "$4"
    case $2 in YES) expect "$1" 0 "$2" '' ;; *) expect "$1" 1 "$2" '' ;; esac
}

# in small pieces, each by a write of its own
trickle() {
    local text
    text=$(cat "$1"; echo .)
    text=${text%.}
    while [ -n "$text" ]; do
        printf '%s' "${text:0:7}"
        text=${text:7}
    done
}

# Certificates of a search, with counts that grow and forms in turn, and small ones.
cp tests/program/cuts/* "$work"
# tea or coffee: tea is kept
lines tea.wcnf 'h 1 2 0' '3 -1 0' '4 -2 0'
lines tea.result 'o 3' 's OPTIMUM FOUND' 'v 10'
lines tea.lrat 'form 1 3 1 0' 'cut 0'
# the same as a search finds it: coffee costs 4, so tea
cp "$work/tea.wcnf" "$work/search.wcnf"
cp "$work/tea.result" "$work/search.result"
lines search.lrat 'form 1 0' 'cut -2 0' '3 1 0 2 1 0' 'cut 0'
lines tautology.wcnf '5 1 -1 0' '2 1 2 0' '3 -1 -2 0' '4 1 0' '4 -1 0' 'h 1 2 0'
lines tautology.result 'o 4' 's OPTIMUM FOUND' 'v 10'
lines tautology.lrat 'form 1 0' 'cut 0'
lines bigweights.wcnf 'h 1 2 0' '1152921504606846975 -1 0' '1152921504606846974 -2 0' '7 1 -2 0'
lines bigweights.result 'o 1152921504606846975' 's OPTIMUM FOUND' 'v 10'
lines bigweights.lrat '3 1 2 0 1 0' 'count 2 1 2 0' '8 4 0 4 5 3 0' 'form 1 1152921504606846974 -1 0' 'cut -3 0' 'cut -1 0' \
    '11 2 0 10 1 0' '12 0 11 10 9 2 0'
lines unsat.wcnf 'h 1 2 0' 'h -1 2 0' 'h 1 -2 0' 'h -1 -2 0' '3 1 0'
lines unsat.result 's UNSATISFIABLE'
lines unsat.lrat '5 -1 0 2 4 0' '6 2 0 5 1 0' '7 0 5 6 3 0'
lines zero.wcnf 'h 1 2 0' '3 1 0'
lines zero.result 'o 0' 's OPTIMUM FOUND' 'v 10'
lines zero.lrat 'form 1 0' 'cut 0'
# at most one of three holes, by a group and by a count
lines group.wcnf 'h -1 -2 0' 'h -1 -3 0' 'h -2 -3 0' '2 1 0' '2 2 0' '2 3 0' '3 1 2 0'
lines group.result 'o 4' 's OPTIMUM FOUND' 'v 100'
lines group.lrat 'group 1 2 3 0 1 2 3 0' 'form 1 0' 'form + 2 -1 0' 'bound 4 0' 'cut 0'
lines infeasible.wcnf 'h 1 0' 'h -1 0' '3 1 0'
lines infeasible.result 's UNSATISFIABLE'
lines infeasible.lrat 'form 0 1 1 1 2 0' 'cut 0'
for name in tea search tautology bigweights unsat zero group infeasible package_choice_60_1 network_20_1 diagnosis_100_1; do
    whole=$work/$name.lrat
    count=$(wc -l < "$whole")
    judge "$name" YES $name $name.lrat
    call check --profile any $name.wcnf $name.result $name.lrat
    expect "$name in any profile" 0 YES ''
    sed 's/$/\r/' "$whole" > "$work/proof"
    judge "$name with CR LF" YES $name proof
    printf '%s' "$(cat "$whole")" > "$work/proof"
    judge "$name without a last line feed" YES $name proof
    sed 's/^/\n \t\n/; s/$/\n/' "$whole" > "$work/proof"
    judge "$name with lines without a token" YES $name proof
    mkfifo "$work/fifo"
    cat "$whole" > "$work/fifo" &
    judge "$name by a pipe" YES $name fifo
    rm "$work/fifo"
    sed '$d' "$whole" > "$work/proof"
    judge "$name without its last line" 'NO NoEmptyClause 0' $name proof
    sed '$p' "$whole" > "$work/proof"
    judge "$name with its last line twice" "NO TrailingLine $((count + 1))" $name proof
    sed '1s/ 0$/ 0 0/' "$whole" > "$work/proof"
    judge "$name with a second 0" 'NO LineForm 1' $name proof
    : > "$work/proof"
    judge "$name, nothing" 'NO NoEmptyClause 0' $name proof
    [ -n "$(grep '^o' "$work/$name.result")" ] && [ $name != zero ] || continue
    cost=$(sed -n 's/^o //p' "$work/$name.result" | tail -n 1)
    printf 'o %d\n' $((cost - 1)) > "$work/lower.result"
    sed '/^o/d' "$work/$name.result" >> "$work/lower.result"
    cp "$work/$name.wcnf" "$work/lower.wcnf"
    judge "$name, a lower cost" 'NO CostWrong 1' lower $name.lrat
    sed '/^v/s/1/0/' "$work/$name.result" > "$work/lower.result"
    call check --profile 3 lower.wcnf lower.result $name.lrat
    ok "$name, other bits: $out" [ "$out" = 'NO NotFeasible 3' -o "$out" = 'NO CostWrong 1' ]
done
mkfifo "$work/fifo"
trickle "$work/package_choice_60_1.lrat" > "$work/fifo" &
judge 'in small pieces' YES package_choice_60_1 fifo
rm "$work/fifo"

# Each fault with its line, with a last line feed and without: INSTANCE|CERTIFICATE|VERDICT.
while IFS='|' read -r name proof wanted; do
    printf '%b\n' "$proof" > "$work/proof"
    judge "$name: $proof" "$wanted" "$name" proof
    printf '%b' "$proof" > "$work/proof"
    judge "$name: $proof, without a last line feed" "$wanted" "$name" proof
done <<'ROWS'
tea|form 1 3 1 0\ncut 0|YES
tea| form\t1  3 1 0 \r\n\n \ncut 0|YES
tea|form 1 0\nform + 3 1 0\ncut 0|YES
tea|form 1 2 1 0\nform + 1 1 0\ncut 0|YES
tea|form 2 6 1 0\ncut 0|YES
tea|form 1 4 1 0\ncut 0|YES
tea|form 1 3 1 0\nbound 0 0\nbound 3 0\ncut 0|YES
tea|form 1 0\ncut -2 0\ncut -1 0\n4 0 2 3 1 0|YES
tea|form 1 0\ncut -2 0\n9 1 0 2 1 0\ncut 0|YES
tea|9 1 2 0 1 0\nform 1 0\ncut -2 0\n11 1 0 10 9 0\ncut 0|YES
tea|form 1 3 1 0\n1 d 1 0\ncut 0|YES
tea|form 1 0\ncut -2 0\n3 1 0 2 1 0\n3 d 2 3 0\ncut 0|YES
tea|2 134217727 1 2 0 1 0\nform 1 3 1 0\ncut 0|YES
tea|form 1537228672809129301 4611686018427387903 1 0\ncut 0|YES
tea|group -1 -2 0 1 0\nform 1 3 -1 0\ncut 0|YES
tea|group -2 -1 0 1 0\nform 1 3 -1 0\ncut 0|YES
tea|count 1 1 2 0\n4 3 0 2 3 1 0\nform 1 3 -1 0\ncut 0|YES
tea|count 1 1 2 0\nmore 1 0\n6 3 0 2 3 1 0\nform 1 3 -1 0\ncut 0|YES
tea|count 2 1 2 0\n6 3 0 2 3 1 0\nform 1 3 -1 0\ncut 0|YES
tea|count 1 1 0\nform 1 3 -1 3 1 0\ncut 0|YES
tea|group -1 -2 0 1 0\ncount 1 1 2 0\n4 3 0 2 3 1 0\nform 1 2 -1 1 -2 0\ncut 0|YES
tea|form 1 2 1 0\ncut 0|NO CutWorth 2
tea|form 1 5 1 0\ncut 0|NO CutWorth 2
tea|form 0 1 1 0\ncut 0|NO CutWorth 2
tea|form 2 5 1 0\ncut 0|YES
tea|form 1 3 1 0\nform 1 2 1 0\ncut 0|NO CutWorth 3
tea|form 1 3 1 0\nform + 2 1 0\ncut 0|NO CutWorth 3
tea|form 1 3 1 0\nbound 4 0|NO CutWorth 2
tea|form 1 3 1 0\nbound 4611686018427387903 0|NO CutWorth 2
tea|form 4611686018427387903 4611686018427387903 1 0\ncut 0|NO CutWorth 2
tea|form 1 4611686018427387903 1 4611686018427387903 1 0\ncut 0|NO CutWorth 2
tea|form 1 0\ncut -1 0\ncut 0|NO CutWorth 3
tea|form 1 0\ncut 1 0|NO CutWorth 2
tea|form 1 0\ncut -2 0\n3 1 0 2 1 0\nform 0 0\ncut 0|NO CutWorth 5
tea|count 1 1 2 0\nform 1 3 -1 0\ncut 0|NO CutWorth 3
tea|count 1 1 2 0\n4 -3 0 2 3 1 0|NO HintNotUnit 2
tea|cut 0|NO LineName 1
tea|bound 0 0|NO LineName 1
tea|form + 1 1 0|NO LineName 1
tea|form 1 1 2 0|NO LineName 1
tea|1 d 1 0\nform 1 3 1 0|NO LineName 2
tea|form 1 1 -1 0|NO LineName 1
tea|group -1 -2 0 1 0\nform 1 1 -2 0|NO LineName 2
tea|form 1 0\ncut 3 0|NO LineName 2
tea|form 1 0\ncut -1 -1 0|NO LineName 2
tea|form 1 0\ncut 1 -1 0|NO LineName 2
tea|form 1 0\ncut -134217728 0|NO LineName 2
tea|form 1 0\ncut 4611686018427387903 0|NO LineName 2
tea|2 3 1 2 0 1 0\nform 1 0\ncut -3 0|NO LineName 3
tea|count 1 3 0|NO LineName 1
tea|count 1 1 1 0|NO LineName 1
tea|count 1 1 -1 0|NO LineName 1
tea|count 0 1 0|NO LineName 1
tea|count 3 1 2 0|NO LineName 1
tea|count 4611686018427387903 1 2 0|NO LineName 1
tea|more 1 0|NO LineName 1
tea|count 1 1 2 0\nmore 2 0|NO LineName 2
tea|count 1 1 2 0\nmore 1 0\nmore 1 0|NO LineName 3
tea|count 1 1 0\nmore 1 0|NO LineName 2
tea|group -1 -2 0 1 0\nmore 1 0|NO LineName 2
tea|group 0 0|NO LineName 1
tea|group -1 0 0|NO LineName 1
tea|group 1 2 0 1 0|NO LineName 1
tea|group -1 2 0 1 0|NO LineName 1
tea|group -1 -2 0 0|NO LineName 1
tea|group -1 -2 0 2 0|NO LineName 1
tea|group -1 -2 0 1 1 0|NO LineName 1
tea|group -1 -1 0 1 0|NO LineName 1
tea|group -1 -3 0 1 0|NO LineName 1
tea|cut|NO LineForm 1
tea|cut 1|NO LineForm 1
tea|cut 0 0|NO LineForm 1
tea|cut 1 0 2 0|NO LineForm 1
tea|cut x 0|NO LineForm 1
tea|cut -0|NO LineForm 1
tea|cut 01 0|NO LineForm 1
tea|cut 4611686018427387904 0|NO LineForm 1
tea|form 0|NO LineForm 1
tea|form 1|NO LineForm 1
tea|form 1 3 0|NO LineForm 1
tea|form 1 3 1|NO LineForm 1
tea|form 1 0 1 0|NO LineForm 1
tea|form 1 3 0 0|NO LineForm 1
tea|form -1 0|NO LineForm 1
tea|form 01 0|NO LineForm 1
tea|form ++ 0|NO LineForm 1
tea|form 1 -3 1 0|NO LineForm 1
tea|form 1 + 1 0|NO LineForm 1
tea|form 4611686018427387904 0|NO LineForm 1
tea|form 1 4611686018427387904 1 0|NO LineForm 1
tea|form 1 1 4611686018427387904 0|NO LineForm 1
tea|form 1 1 4611686018427387903 0|NO LineName 1
tea|count 0|NO LineForm 1
tea|count 1 0|NO LineForm 1
tea|count -1 1 0|NO LineForm 1
tea|count 1 1 0 2 0|NO LineForm 1
tea|more 0|NO LineForm 1
tea|more 0 0|NO LineForm 1
tea|more -1 0|NO LineForm 1
tea|more 1 1 0|NO LineForm 1
tea|group 0|NO LineForm 1
tea|group -1 -2 0|NO LineForm 1
tea|group -1 -2 0 -1 0|NO LineForm 1
tea|group -1 -2 0 1|NO LineForm 1
tea|group -1 -2 0 1 0 0|NO LineForm 1
tea|bound 0|NO LineForm 1
tea|bound 1|NO LineForm 1
tea|bound -1 0|NO LineForm 1
tea|bound 1 1 0|NO LineForm 1
tea|bound 4611686018427387904 0|NO LineForm 1
tea|cuts 0|NO LineForm 1
tea|Cut 0|NO LineForm 1
tea|formula 1 0|NO LineForm 1
tea|c 1 0|NO LineForm 1
tea|+ 1 0|NO LineForm 1
tea|2 cut 0|NO LineForm 1
tea|2 form 0|NO LineForm 1
tea|x|NO LineForm 1
tea|2 1 0|NO LineForm 1
tea|2 1 0 1|NO LineForm 1
tea|1 1 2 0 1 0|NO IdOrder 1
tea|form 1 0\ncut -2 0\n2 1 0 2 1 0|NO IdOrder 3
tea|count 1 1 2 0\n3 3 0 2 3 1 0|NO IdOrder 2
tea|2 1 1 0 1 0|NO ClauseForm 1
tea|2 1 -1 0 1 0|NO ClauseForm 1
tea|2 134217728 0 1 0|NO ClauseForm 1
tea|2 1 0 2 0|NO DeadId 1
tea|2 d 2 0|NO DeadId 1
tea|2 d 1 1 0|NO DeadId 1
tea|2 1 0 1 0|NO NoConflict 1
tea|2 1 2 0 1 1 0|NO HintAfterConflict 1
tea|2 1 2 0 0|NO NoConflict 1
tea|form 1 0\ncut -2 0\n3 1 0 2 0|NO NoConflict 3
tea|2 3 0 0|NO NoConflict 1
tea|2 3 1 0 0|NO NoConflict 1
tea|2 -1 -2 0 -1 0|NO NoConflict 1
tea|2 1 2 0 1 -1 0|NO HintAfterConflict 1
tea|2 0 -1 0|NO NoConflict 1
tea|2 1 2 0 1 0|NO NoEmptyClause 0
tea|form 1 0\ncut -2 0\n3 1 0 2 1 0|NO NoEmptyClause 0
tea|form 1 0\ncut -2 0\n2 d 2 0\n3 1 0 2 1 0|NO DeadId 4
tea|form 1 3 1 0\ncut 0\ncut 0|NO TrailingLine 3
tea|form 1 3 1 0\ncut 0\nx|NO TrailingLine 3
tea|form 1 3 1 0\ncut 0\ncut|NO TrailingLine 3
tea|form 1 3 1 0\ncut 0\n\n \nform 1 0|NO TrailingLine 5
tea|form 1 3 1 0\ncut 0\n\n \n|YES
tea|\n \n|NO NoEmptyClause 0
tea|\n\r\n \t\nform 1 2 1 0\n\ncut 0|NO CutWorth 6
tea|\n\r cut 0|NO LineForm 2
infeasible|form 0 1 1 1 2 0\ncut 0|YES
infeasible|3 0 1 2 0|YES
infeasible|form 1 0\n3 0 1 2 0|YES
infeasible|form 0 1 1 1 2 0\nbound 4611686018427387903 0\ncut 0|YES
infeasible|form 0 1 1 0\ncut 0|NO CutWorth 2
infeasible|form 1 0\ncut 0|NO CutWorth 2
infeasible|form 1 0\ncut -2 0|NO LineName 2
infeasible|form 1 4611686018427387903 1 4611686018427387903 2 0\ncut 0|NO CutWorth 2
infeasible|form 0 1 1 1 2 0\ncut 3 0\n4 0 1 2 0|NO LineName 2
infeasible|form 0 1 1 1 2 0\ncut 1 0\n4 0 1 2 0|YES
group|group 1 2 3 0 1 2 3 0\nform 1 2 -1 0\ncut 0|YES
group|group 1 2 3 0 1 3 2 0\nform 1 2 -1 0\ncut 0|NO LineName 1
group|group 2 1 3 0 1 3 2 0\nform 1 2 -1 0\ncut 0|YES
group|group 1 2 3 0 1 2 0|NO LineName 1
group|group 1 2 3 0 1 2 3 3 0|NO LineName 1
group|group 1 2 3 0 1 2 4 0|NO LineName 1
group|group 1 2 3 0 1 2 5 0|NO LineName 1
group|group 1 2 -3 0 1 2 3 0|NO LineName 1
group|3 d 2 0\ngroup 1 2 3 0 1 2 3 0|NO LineName 2
group|group 1 2 3 0 1 2 3 0\n4 d 1 2 3 0\nform 1 2 -1 0\ncut 0|YES
group|group 1 2 3 0 1 2 3 0\nform 1 1 -1 0\ncut 0|NO CutWorth 3
group|group 1 2 0 1 0\nform 1 2 -1 0\ncut 0|NO CutWorth 3
group|group 1 2 3 0 1 2 3 0\nform 1 2 -1 0\nbound 5 0|NO CutWorth 3
group|count 1 4 1 0\nform 1 1 4 0\ncut 4 0|NO CutWorth 3
group|count 1 5 0|NO LineName 1
group|form 1 0\ncut 5 0|NO LineName 2
ROWS

# One change in each line and each word of a certificate, with the verdict that another reader gave: LINE|PLACE|NEW|VERDICT,
# where place 0 is the whole line.
wrong=0
while IFS='|' read -r line place new wanted; do
    awk -v line="$line" -v place="$place" -v new="$new" 'NR == line { $place = new } { print }' "$work/package_choice_60_1.lrat" > "$work/proof"
    call check --profile 3 package_choice_60_1.wcnf package_choice_60_1.result proof
    [ "$out$err" = "$wanted" ] && continue
    wrong=$((wrong + 1))
    echo "line $line, place $place, [$new]: wanted $wanted, got $out $err"
done < "$work/package_choice_60_1.spoiled"
ok 'one change in each line and each word' [ $wrong = 0 ]
# Cut off behind each of its lines, and others at each byte.
wrong=0
for count in $(seq 0 76); do
    head -n "$count" "$work/package_choice_60_1.lrat" > "$work/proof"
    call check --profile 3 package_choice_60_1.wcnf package_choice_60_1.result proof
    [ "$out$err" = 'NO NoEmptyClause 0' ] || wrong=$((wrong + 1))
done
ok 'cut off behind each line' [ $wrong = 0 ]
for name in tea bigweights group; do
    size=$(wc -c < "$work/$name.lrat")
    wrong=0
    for count in $(seq 0 $((size - 2))); do
        head -c "$count" "$work/$name.lrat" > "$work/proof"
        call check --profile 3 $name.wcnf $name.result proof
        [ "$status $err ${out%% *}" = '1  NO' ] || wrong=$((wrong + 1))
    done
    ok "$name, cut off at each byte" [ $wrong = 0 ]
done

# What the result says is looked at first, and a dearer solution is no optimum by any line.
lines dearer.result 'o 4' 's OPTIMUM FOUND' 'v 01'
cp "$work/tea.wcnf" "$work/dearer.wcnf"
judge 'a dearer solution' 'NO CutWorth 2' dearer tea.lrat
judge 'a dearer solution, by the last cut' 'NO CutWorth 4' dearer search.lrat
lines dearer.result 's UNSATISFIABLE'
for name in tea search; do judge "no solution, $name" 'NO CutWorth 2' dearer $name.lrat; done
lines dearer.result 'o 3' 's SATISFIABLE' 'v 10'
judge 'a solution' 'NO StatusWithoutProof 2' dearer tea.lrat
lines dearer.result 's UNKNOWN'
judge 'nothing' 'NO StatusWithoutProof 1' dearer tea.lrat
lines dearer.result 'o 3' 's OPTIMUM FOUND'
judge 'no bits' 'NO ResultForm 0' dearer tea.lrat
lines dearer.wcnf 'h 1 2 0' '3 -1'
judge 'a faulty text' 'NO Text 2' dearer tea.lrat

# The empty clause of the formula is no last line.
lines empty.wcnf 'h 0' '3 1 0'
lines empty.result 's UNSATISFIABLE'
lines proof '2 0 1 0'
judge 'an empty hard clause' YES empty proof
lines proof 'form 0 1 1 0' 'cut 0'
judge 'an empty hard clause as a fact' YES empty proof
lines proof 'form 1 0'
judge 'an empty hard clause alone' 'NO NoEmptyClause 0' empty proof

# Which profile it was made in is said where another one was asked, and it begins so.
note='PROOF begins like a certificate of profile 3: try --profile 3'
noted() { # NAME STATUS STDOUT STDERR WORD..: of tea and proof, by these words
    call check "${@:5}" tea.wcnf tea.result proof
    expect "$1" "$2" "$3" "$4"
}
for line in 'form 1 3 1 0' 'count 1 1 2 0' 'more 1 0' 'group -1 -2 0 1 0' 'cut 0' 'bound 1 0' 'form x'; do
    lines proof "$line"
    noted "$line, without a profile" 1 'NO LineForm 1' "$note"
    for profile in 1 2; do noted "$line, profile $profile" 1 'NO LineForm 1' "$note" --profile $profile; done
    call check --profile 3 tea.wcnf tea.result proof
    ok "$line, profile 3: $out $err" [ "$status$err" = 1 -a "${out%% *}" = NO ]
    call check --profile any tea.wcnf tea.result proof
    ok "$line, any profile: $out $err" [ "$status$err" = 1 -a "${out%% *}" = NO ]
done
for line in '2 1 0 1 0' 'formula 1 0' 'cuts 0' 'core 3 1 3 4 0' 'x'; do
    lines proof "$line"
    call check tea.wcnf tea.result proof
    ok "$line: no profile is named" [ "$status$err" = 1 -a "${out%% *}" = NO ]
done
cp "$work/tea.wcnf" "$work/other.wcnf"
lines other.result 'o 2' 's OPTIMUM FOUND' 'v 10'
call check other.wcnf other.result tea.lrat
ok "a wrong result: $out $err" [ "$status $out" = '1 NO CostWrong 1' -a -z "$err" ]

# The other commands in this profile, which may be that of the environment.
with() { # WORD..: the program with this profile in its environment
    out=$(cd "$work" && WMAX_PROFILE=3 timeout 60 "$wmax" "$@" 2> "$work/.err" < /dev/null)
    status=$?
    err=$(cat "$work/.err")
}
lines more.wcnf 'h 1 2 0' '3 -1 0' '2 -2 1 -2 0'
with check tea.wcnf tea.result tea.lrat
expect 'check in the profile of the environment' 0 YES ''
with check --profile 1 tea.wcnf tea.result tea.lrat
expect 'check in another one than that of the environment' 1 'NO LineForm 1' "$note"
for cost in 0 3; do
    call encode --profile 3 tea.wcnf $cost
    expect "encode, $cost" 0 $'p cnf 2 1\n1 2 0' ''
    with encode tea.wcnf $cost
    expect "encode in the profile of the environment, $cost" 0 $'p cnf 2 1\n1 2 0' ''
    call encode --profile 3 more.wcnf $cost
    expect "encode, a soft clause that is no unit, $cost" 0 $'p cnf 3 2\n1 2 0\n-2 1 3 0' ''
done
call encode --profile 3 --proof tea.lrat tea.wcnf 3
expect 'encode of a certificate' 0 $'p cnf 2 2\n1 2 0\n0' ''
with solve --proof proof tea.wcnf
expect 'solve in the profile of the environment' 30 $'o 4\no 3\ns OPTIMUM FOUND\nv 10' ''
with check tea.wcnf tea.result proof
expect 'solve in the profile of the environment: certificate' 0 YES ''
with solve --profile 1 tea.wcnf
expect 'solve in another one than that of the environment' 30 $'o 3\ns OPTIMUM FOUND\nv 10' ''
with lower tea.wcnf tea.lrat
said=$out
call lower tea.wcnf tea.lrat
expect 'lower does not look at the profile' "$status" "$said" ''

# Certificates that are made to be slow or to overflow: each gets its verdict. `many` has 2^16 soft units, one of which is false.
python3 - "$work" << 'PY'
import sys
work = sys.argv[1]
size = 2 ** 16
large = 2 ** 62 - 1


def write(name, *rows):
    with open(f"{work}/{name}", "w") as file:
        for row in rows:
            print(*row, file=file)


def at_least_one(variables, first):
    """The hints by which the first output of a count is true: its clauses from the root down, by the ids of their nodes."""
    made, inner = 0, []

    def tree(lowest, count):
        nonlocal made
        if count == 1:
            return
        tree(lowest, count // 2)
        tree(lowest + count // 2, count - count // 2)
        inner.append(first + made)
        made += 2

    tree(1, variables)
    return [number for node in reversed(inner) for number in (node, node + 1)]


inputs = list(range(1, size + 1))
write("many.wcnf", ["h", *inputs, 0], *([1, -it, 0] for it in inputs))
write("many.result", ["o 1"], ["s OPTIMUM FOUND"], ["v", "1" + "0" * (size - 1)])
hints = at_least_one(size, 2)
root, last = 2 * size - 1, 2 * size - 1
count = ["count", 1, *inputs, 0]
end = [["form 1 1 -1 0"], ["cut 0"]]
write("count", count, [last + 1, root, 0, *hints, 1, 0], *end)
write("count.open", count, *end)
write("count.hint", count, [last + 1, root, 0, *hints[:-1], 1, 0], *end)
write("count.large", ["count", size, *inputs, 0])
write("count.all", ["count", large, *inputs, 0])
write("count.twice", ["count", 1, *inputs, -size, 0])
write("more", count, *[["more 1 0"]] * 100)
write("terms", ["form", 1, *[1, 1] * (size + 1), 0])
write("bounds", ["form 1 1 1 0"], *[["bound 1 0"]] * 200, ["cut 0"])

few = list(range(1, 2 ** 10 + 1))
write("few.wcnf", ["h", *few, 0], *([1, -it, 0] for it in few))
write("few.result", ["o 1"], ["s OPTIMUM FOUND"], ["v", "1" + "0" * 1023])
write("forms", *[["form 1 1 1 0"], ["bound 1 0"]] * 10 ** 4, ["cut 0"])
write("forms.worth", *[["form 1 1 1 0"], ["bound 1 0"]] * 10 ** 4, ["form 1 2 1 0"], ["cut 0"])
write("further", ["form 1 0"], *[["form + 1 1 0"]] * 10 ** 4, ["cut 0"])
cuts = [["cut", 1 + at % 1024, -1 - (at + 1) % 1024, 0] for at in range(10 ** 5)]
write("cuts", ["form 1 1 1 0"], *cuts, ["cut 0"])
write("cuts.worth", ["form 1 1 1 0"], *cuts, ["form 2 2 1 0"], *cuts, ["form 1 2 1 0"], ["cut 0"])
write("wide", ["form 1 1 1 0"], *[["cut", *few, 0]] * 1000, ["cut 0"])
write("deleted", ["form 1 1 1 0"], *cuts, [10 ** 6, "d", *range(1, 10 ** 5 + 2), 0], ["cut 0"])
write("facts", ["form", large, *[large, 1] * 1000, 0], ["cut 0"])

members = list(range(1, 301))
pairs = [(other, it) for it in members for other in range(1, it)]
write("clique.wcnf", *(["h", -other, -it, 0] for other, it in pairs), *([1, it, 0] for it in members))
write("clique.result", ["o 299"], ["s OPTIMUM FOUND"], ["v", "1" + "0" * 299])
ids = list(range(1, len(pairs) + 1))
end = [["form 1 1 -1 0"], ["cut 0"]]
write("group", ["group", *members, 0, *ids, 0], *end)
write("group.order", ["group", *members, 0, *ids[:-2], ids[-1], ids[-2], 0], *end)
write("group.short", ["group", *members, 0, *ids[:-1], 0], *end)
write("groups", *[["group", *members, 0, *ids, 0]] * 20, *end)

# 2^64 + 3 times the clause, and 3 times if what is above 64 bits were lost
write("wrap", ["form", 1, *[large, 1] * 4, 7, 1, 0], ["cut 0"])
write("scale", ["form", large, *[large, 1] * 3, 0], ["bound 3 0"], ["cut 0"])
write("scale.worth", ["form", large, *[large, 1] * 3, 0], ["bound 4 0"], ["cut 0"])
write("long", ["cut", *range(1, 10 ** 6)])
write("blank", *[[]] * 3 * 10 ** 6, ["cut 0"])
PY
while read -r instance proof wanted; do
    judge "$proof" "$wanted" "$instance" "$proof"
done <<'ROWS'
many count YES
many count.open NO CutWorth 3
many count.hint NO NoConflict 2
many count.large NO LineLimit 1
many count.all NO LineName 1
many count.twice NO LineName 1
many more NO LineLimit 52
many terms NO LineLimit 1
many bounds YES
few forms YES
few forms.worth NO CutWorth 20002
few further NO CutWorth 10002
few cuts YES
few cuts.worth NO CutWorth 200004
few wide YES
few deleted YES
few facts NO CutWorth 2
clique group YES
clique group.order NO LineName 1
clique group.short NO LineName 1
clique groups YES
tea wrap NO CutWorth 2
tea scale YES
tea scale.worth NO CutWorth 2
tea long NO LineForm 1
tea blank NO LineName 3000001
ROWS
totals
