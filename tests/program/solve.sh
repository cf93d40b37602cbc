#!/usr/bin/env bash
# `wmax solve` from the files to the printed result, and each certificate through `wmax check`; of profile 3 see `solve_cuts`.
source "$(dirname "$0")/../lib"

# solved NAME STATUS WORD..: what solving the text prints, in profiles 1 and 2, and whether the certificate checks.
# Of the `o` lines only the last is fixed. `told` is what stands on standard error.
told=
solved() {
    local name=$1 wanted=$2 profile
    shift 2
    for profile in 1 2; do
        rm -f "$work/proof"
        call solve --profile $profile --proof proof "$@" text
        printf '%s\n' "$out" > "$work/result"
        out=$(grep -v '^o ' <<< "$out"; grep '^o ' <<< "$out" | tail -n 1)
        expect "$name, profile $profile" "$wanted" "$result" "$told"
        case $wanted in
            20 | 30)
                call check --profile $profile text result proof
                expect "$name, profile $profile: certificate" 0 YES ""
                ;;
            *) ok "$name, profile $profile: no certificate" [ ! -s "$work/proof" ] ;;
        esac
    done
}

optimum() { # COST BITS
    result=$(printf '%s\n' 's OPTIMUM FOUND' "${2:+v $2}" "o $1" | sed 's/^$/v/')
}

: > "$work/text"
optimum 0 ''
told='warning: no clause was read'
solved 'an empty text' 30
printf 'c h 1 0\n\n' > "$work/text"
solved 'comments alone' 30
lines text 'p wcnf 0 0 1'
solved 'a header alone' 30
told=
lines text 'h 0'
result='s UNSATISFIABLE'
solved 'an empty hard clause, without effort' 20 --conflicts 0
lines text '5 0'
optimum 5 ''
solved 'an empty soft clause' 30
lines text 'h 1 2 0' '3 -1 0' '4 -2 0'
optimum 3 10
solved 'one of two' 30
lines text '4611686018427387903 1 0'
optimum 0 1
solved 'the greatest weight' 30
lines text 'h 1 -1 0' '2 1 1 0' '3 -1 0'
optimum 2 0
solved 'a clause with complementary literals, and a repeat' 30
lines text 'h 1 2 0'
result='s UNKNOWN'
solved 'no effort' 0 --conflicts 0
printf 'c x\r\n\r\nh -1 0\r\n7 1 0' > "$work/text"
optimum 7 0
solved 'CR LF, and a last line without LF' 30
lines text 'h 1 0'
optimum 0 1
solved 'the effort of one solution' 30 --conflicts 1
for v in $(seq 12); do printf '1 %d 0\n1 -%d 0\n' "$v" "$v"; done > "$work/text"
result=$'s SATISFIABLE\nv 000000000000\no 12'
solved 'the effort of one solution, which is not shown to be the cheapest' 10 --conflicts 1
lines text 'h 1 2 0' 'h -1 2 0' 'h 1 -2 0' 'h -1 -2 0'
result='s UNSATISFIABLE'
solved 'four clauses that no assignment satisfies' 20

# Exact results, where one solution alone has a cost to tell.
exactly() { # NAME STATUS RESULT WORD..
    local name=$1 wanted=$2 text=$3
    shift 3
    call solve "$@" text
    expect "$name" "$wanted" "$text" "$told"
}
: > "$work/text"
told='warning: no clause was read'
exactly 'an empty text, without certificate' 30 $'o 0\ns OPTIMUM FOUND\nv'
told=
lines text 'h 1 0'
exactly 'one solution' 30 $'o 0\ns OPTIMUM FOUND\nv 1' --conflicts 1

# Faulty texts: one line on standard error, and nothing else.
while IFS='|' read -r text fault; do
    printf '%b\n' "$text" > "$work/text"
    call solve text
    expect "$text" 2 "" "error: $fault"
done <<'ROWS'
4611686018427387903 1 0\n1 -1 0|line 2: WeightSum
0 1 0|line 1: Weight
h 1 2|line 1: NoZero
h 01 0|line 1: Literal
p wcnf 1 1 5|line 1: Count
ROWS

# The text may come through a pipe.
lines text 'h 1 2 0' '3 -1 0' '4 -2 0'
call solve text
wanted=$out
for way in 'cat text | "$wmax" solve /dev/stdin' '"$wmax" solve <(cat text)' '"$wmax" solve --proof proof <(cat text)'; do
    out=$(cd "$work" && eval "$way" 2> .err)
    status=$?
    err=$(cat "$work/.err")
    expect "$way" 30 "$wanted" ''
done
printf '%s\n' "$wanted" > "$work/result"
out=$(cd "$work" && "$wmax" check <(cat text) <(cat result) <(cat proof) 2>&1)
ok 'all three through pipes' [ "$out" = YES ]

# The certificate's file is not the instance, whatever it is called.
lines text 'h 1 2 0' '3 -1 0' '4 -2 0'
cp "$work/text" "$work/kept"
ln -s text "$work/link"
ln "$work/text" "$work/hard"
for path in text ./text link hard; do
    call solve --proof $path text
    expect "the instance as certificate, by $path" 3 "" "error: ProofOutput"
    ok "the instance is kept, by $path" cmp -s "$work/text" "$work/kept"
done
call solve --proof missing/proof text
expect 'a certificate in no folder' 3 "" "error: ProofOutput"
call solve missing
expect 'no instance' 3 "" "error: Read missing"
lines proof 'of an earlier run, and longer than what comes' 'x' 'x' 'x' 'x' 'x' 'x' 'x' 'x' 'x' 'x' 'x' 'x' 'x' 'x'
call solve --proof proof text
printf '%s\n' "$out" > "$work/result"
call check text result proof
expect 'an older certificate is emptied' 0 YES ""

# Outputs that fail.
if [ -c /dev/full ]; then
    call solve --proof /dev/full text
    ok 'a certificate that cannot be written' [ "$status $err" = '3 error: ProofOutput' ]
    ok 'no status line without its certificate' [ -z "$(grep -v '^o ' <<< "$out")" ]
    err=$(timeout 60 "$wmax" solve "$work/text" 2>&1 > /dev/full)
    status=$?
    out=
    expect 'a result that cannot be written' 3 "" "error: Output"
fi

# The command line.
for words in '--conflicts 4611686018427387905' '--conflicts x' '--profile 0' '--profile 4' '--profile x' '--proof'; do
    call solve $words text
    ok "refused: $words" [ "$status" = 2 ]
done
for words in --clock -z; do
    call solve $words 3 text
    ok "unknown: $words" [ "$status$out" = 2 ]
    ok "unknown: $words: no tip to write it behind '--'" [ "$(grep -c . <<< "$err")" = 3 -a -z "$(grep tip <<< "$err")" ]
done
for words in solve check encode ''; do
    call $words --help
    ok "help: $words" [ "$status$err" = 0 ]
    ok "help names the statuses: $words" grep -q '^Statuses: *' <<< "$out"
    ok "help has an example: $words" grep -q "^  wmax ${words:-solve} " <<< "$out"
done
for words in --version -V; do
    call $words
    ok "$words" [ "$status $err" = '0 ' ]
    ok "$words names the program" grep -qxE 'wmax [0-9]+\.[0-9]+\.[0-9]+' <<< "$out"
done
for words in $'te\377xt' $'--proof=\200'; do
    call solve "$words"
    expect 'a word that is not UTF-8' 2 "" 'error: the command line has a word that is not UTF-8'
done

# Standard input, output and error may be closed at the start: no file that is opened takes their number. Without
# standard output the run fails as with any other output that cannot be written.
lines text 'h 1 2 0' '3 -1 0' '4 -2 0'
call solve --proof wanted text
for closed in '<&-' '2>&-' '<&- 2>&-' '>&-' '<&- >&-' '2>&- >&-' '<&- 2>&- >&-'; do
    rm -f "$work/proof"
    printed=$(cd "$work" && eval "\"$wmax\" solve --proof proof text $closed" 2> .err)
    status=$?
    case " $closed" in
        *' >&-')
            ok "closed $closed: status $status" [ "$status" = 3 ]
            ok "closed $closed: nothing printed" [ -z "$printed" ]
            ok "closed $closed: no certificate" [ ! -s "$work/proof" ]
            case $closed in
                *'2>&-'*) ;;
                *) ok "closed $closed: the fault" [ "$(cat "$work/.err")" = 'error: Output' ] ;;
            esac
            ;;
        *)
            ok "closed $closed: status $status" [ "$status" = 30 ]
            ok "closed $closed: the result" [ "$printed" = "$out" ]
            ok "closed $closed: the certificate, and nothing else" cmp -s "$work/proof" "$work/wanted"
            ;;
    esac
    ok "closed $closed: the instance is kept" cmp -s "$work/text" "$work/kept"
done

totals
