#!/usr/bin/env bash
# The LRAT checker of the ACL2 books (bench/outside), where `acl2` is found: it accepts the examples and certificates of
# `wmax solve` in each profile, and refuses broken ones as `wmax check` does. It runs for two seconds a certificate.
source "$(dirname "$0")/../lib"

if ! command -v acl2 > /dev/null; then
    bash bench/outside examples > "$work/out" 2>&1
    ok 'without acl2: how to get it' [ $? = 2 -a "$(grep -c 'apt-get install --no-install-recommends acl2-books' "$work/out")" = 1 ]
    echo 'acl2 is not installed: no certificate was given to another checker'
    totals
    exit
fi

# judged WANTED NAME [WORD..]: the verdicts of both checkers on $work/NAME.wcnf, as 'outside/wmax', match a pattern
judged() {
    local wanted=$1 name=$2
    shift 2
    bash bench/outside "$@" "$work/$name.wcnf" > "$work/out" 2>&1
    said=$(awk 'NR == 2 { print $2 "/" ($3 == "NO" ? $3 " " $4 : $3) }' "$work/out")
    ok "$name $*: $(tail -n 1 "$work/out")" eval '[[ $said == $wanted ]]'
}

for name in roster bothsigns packages vcover maxcut bigw timetable mul8 par40; do
    cp "examples/$name".* "$work"
    judged VERIFIED/YES $name
done
for name in roster packages bigw; do
    rm -f "$work/$name.result"
    for profile in 1 2; do judged VERIFIED/YES $name --profile $profile; done
    # a last cut is an empty clause of the formula, which its reader does not take
    judged '@(VERIFIED|SKIPPED)/YES' $name --profile 3
done

# A refutation with definitions, and ways to break it.
lines whole.wcnf 'h 1 2 0' 'h -1 2 0' 'h 1 -2 0' 'h -1 -2 0'
lines whole.result 's UNSATISFIABLE'
lines whole.lrat '5 3 1 0 0' '6 -3 2 0 -5 1 0' '7 2 0 1 2 0' '8 0 7 3 4 0'
judged VERIFIED/YES whole
broken() { # NAME WANTED LINE..: the same instance with this certificate
    local name=$1 wanted=$2
    shift 2
    cp "$work/whole.wcnf" "$work/$name.wcnf"
    cp "$work/whole.result" "$work/$name.result"
    lines "$name.lrat" "$@"
    judged "$wanted" "$name"
}
broken open 'REFUSED/NO NoEmptyClause' '5 3 1 0 0' '6 -3 2 0 -5 1 0' '7 2 0 1 2 0'
broken hint 'REFUSED/NO NoConflict' '5 2 0 1 2 0' '6 0 5 3 0'
broken unit 'REFUSED/NO HintNotUnit' '5 0 1 0'
broken dead 'REFUSED/NO DeadId' '5 2 0 1 2 0' '5 d 3 0' '6 0 5 3 4 0'
broken candidate 'REFUSED/NO Candidates' '5 3 1 0 0' '6 -3 2 0 0' '7 2 0 1 2 0' '8 0 7 3 4 0'
broken literal 'REFUSED/NO HintNotUnit' '5 1 0 1 2 0' '6 0 5 3 4 0'
broken form 'REFUSED/NO LineForm' '5 2 0 1 2' '6 0 5 3 4 0'

# Its rules are looser in what does no harm.
broken later 'VERIFIED/NO HintAfterConflict' '5 2 0 1 2 3 0' '6 0 5 3 4 0'
broken absent 'VERIFIED/NO DeadId' '5 d 9 0' '5 2 0 1 2 0' '6 0 5 3 4 0'

# What its reader does not take.
lines empty.wcnf '5 0'
lines empty.result 'o 5' 's OPTIMUM FOUND' 'v'
lines empty.lrat '3 0 1 2 0'
judged VERIFIED/YES empty
: > "$work/none.wcnf"
lines none.result 'o 0' 's OPTIMUM FOUND' 'v'
lines none.lrat '2 0 1 0'
judged SKIPPED/YES none
totals
