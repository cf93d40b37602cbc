#!/usr/bin/env bash
# Each allocation of the program refused in turn, until a run meets none: it gives the plain answer, or `error: Memory` with status 3,
# whole `o` lines and no certificate; in profile 3 the beginning of one, which is right. Where the local search had no memory, `solve`
# gives the plain optimum by another certificate, which checks. What it reads stays as it is.
source "$(dirname "$0")/../lib"

compiles -O1 -shared -fPIC -o "$work/refuse.so" tests/program/refuse.c
if [ ! -e "$work/refuse.so" ]; then
    totals
    exit
fi

# refused N WORD..: the program with these words, with its Nth allocation refused; what stands in `begun`, if anything, is its
# certificate so far
refused() {
    local at=$1
    shift
    rm -f "$work/mark" "$work/proof"
    [ ! -e "$work/begun" ] || cp "$work/begun" "$work/proof"
    (cd "$work" && REFUSE_AT=$at REFUSE_MARK=mark LD_PRELOAD="$work/refuse.so" timeout 60 "$wmax" "$@" > .out 2> .err < /dev/null)
    status=$?
    err=$(cat "$work/.err")
}

is_plain() {
    [ "$status" = "$plain_status" ] && cmp -s "$work/.out" "$work/plain.out" && cmp -s "$work/proof" "$work/plain.proof" && [ -z "$err" ]
}

# profile_of WORD..: the words of these that name a profile
profile_of() {
    grep -oE -- '--profile [0-9]' <<< "$*"
}

# is_other_way WORD..: the optimum of the plain answer, with another certificate, which checks
is_other_way() {
    # shellcheck disable=SC2046 # words
    [ "$1 $status $err" = 'solve 30 ' ] && [ "$(grep '^o' "$work/.out" | tail -n 1)" = "$(grep '^o' "$work/plain.out" | tail -n 1)" ] &&
        [ "$(cd "$work" && "$wmax" check $(profile_of "$@") text .out proof)" = YES ]
}

# is_beginning WORD..: what stands of a certificate after these words: nothing, or in profile 3 lines that are right, with all that
# stood there before
is_beginning() {
    [ ! -e "$work/begun" ] || cmp -s -n "$(stat -c %s "$work/begun")" "$work/begun" "$work/proof" || return 1
    [ ! -s "$work/proof" ] || { [ "$(profile_of "$@")" = '--profile 3' ] && (cd "$work" && "$wmax" lower text proof > /dev/null); }
}

# is_want_of_memory WORD..: the fault; whole `o` lines alone
is_want_of_memory() {
    [ "$status" = 3 ] && [ "$err" = 'error: Memory' ] && [ -z "$(grep -vE '^o [0-9]+$' "$work/.out")" ] &&
        [ -z "$(tail -c 1 "$work/.out")" ] && is_beginning "$@"
}

# each NAME WORD..: the program with these words, with its first allocation refused, its second, and so on
each() {
    local name=$1 n=0 plain_status wrong=0
    shift
    refused 0 "$@"
    plain_status=$status
    if [ -n "$err" ]; then
        ok "$name: $err" false
        return
    fi
    mv "$work/.out" "$work/plain.out"
    touch "$work/proof"
    mv "$work/proof" "$work/plain.proof"
    (cd "$work" && cat text result given 2> /dev/null) > "$work/inputs"
    while [ $n -lt 20000 ]; do
        n=$((n + 1))
        refused $n "$@"
        [ -e "$work/proof" ] || touch "$work/proof"
        if is_plain; then
            [ -e "$work/mark" ] && continue
            break
        fi
        if ! is_want_of_memory "$@" && ! is_other_way "$@"; then
            wrong=$((wrong + 1))
            echo "allocation $n of $name: $status [$(cat "$work/.out")] [$err]"
        fi
    done
    ok "$name: $n allocations" [ $wrong -eq 0 ]
    ok "$name: the last run met none" [ ! -e "$work/mark" ]
    ok "$name: some were refused" [ $n -gt 1 ]
    (cd "$work" && cat text result given 2> /dev/null) > "$work/inputs.now"
    ok "$name: nothing is lost of what it reads" cmp -s "$work/inputs" "$work/inputs.now"
}

lines text 'h 1 2 0' '3 -1 0' '4 -2 0'
each 'one of two' solve --proof proof text
lines result 'o 3' 's OPTIMUM FOUND' 'v 10'
lines given '6 0 5 4 2 3 1 0'
each 'check: one of two' check text result given
each 'check in each profile: one of two' check --profile any text result given
each 'explain: one of two' explain text result
each 'from a solution' solve --from result --proof proof text
each 'explain, no result' explain text
lines given 'count 1 1 2 0' '4 3 0 2 3 1 0' 'form 1 2 -1 1 1 0' 'cut 0'
each 'encode: a form' encode --profile 3 --proof given text 3
each 'lower: a form' lower text given
each 'explain: a form' explain text result given
each 'one of two, profile 3' solve --profile 3 --proof proof text
each 'from a solution, profile 3' solve --profile 3 --from result --proof proof text
lines begun 'count 1 1 2 0' 'form 1 1 1 0' 'bound 1 0'
each 'from a certificate' solve --profile 3 --proof proof --resume text
lines begun 'form 1 0' 'cut -2 0' '3 1 0 2 1 0' 'bound 3 0'
each 'from a certificate and a solution' solve --profile 3 --from result --proof proof --resume text
lines begun 'form 1 3 1 0' 'cut 0'
each 'from a certificate that has ended' solve --profile 3 --from result --proof proof --resume text
rm "$work/begun"
lines text 'h 1 -1 0' '2 1 1 0' '3 -1 0'
each 'a clause with complementary literals' solve --proof proof text
printf 'c x\r\n\r\nh -1 0\r\n7 1 0' > "$work/text"
each 'CR LF' solve --proof proof text
lines text '3 1 0' '1 1 0'
each 'two weights of one literal' solve --proof proof text
each 'two weights of one literal, profile 3' solve --profile 3 --proof proof text
each 'encode: two weights of one literal' encode text 1
each 'encode: two weights of one literal, profile 3' encode --profile 3 text 1
lines text 'h -1 -2 0' 'h -1 -3 0' 'h -2 -3 0' 'h 1 4 0' '2 -1 0' '3 -2 0' '5 -3 0' '4 -4 1 0'
each 'a group of three, profile 3' solve --profile 3 --proof proof text
lines text 'p wcnf 2 3 10' '10 1 2 0' '3 -1 0' '4 -2 0'
each 'the older form' solve --proof proof text
lines text 'h 1 2 0' 'h -1 2 0' 'h 1 -2 0' 'h -1 -2 0'
each 'no solution' solve --proof proof text
lines result 's UNSATISFIABLE'
lines given '5 3 1 0 0' '6 -3 2 0 -5 1 0' '7 2 0 1 2 0' '8 0 7 3 4 0'
each 'check: a definition' check text result given
lines text 'h 1 0' 'h 2 0' 'h -1 0'
each 'explain: no solution' explain text result
lines text 'h 1 2 0' 'h -1 2 0' 'h 1 -2 0' 'h -1 -2 0'
lines given '5 2 0 1 2 0' '6 0 5 3 4 0'
each 'check: RUP lines' check text result given
each 'lower: no solution' lower text given
lines text 'h -1 -2 0' 'h -1 -3 0' 'h -2 -3 0' '2 1 0' '2 2 0' '2 3 0' '3 1 2 0'
lines result 'o 4' 's OPTIMUM FOUND' 'v 100'
lines given 'group 1 2 3 0 1 2 3 0' 'count 1 -1 -2 -3 0' 'more 2 0' 'form 1 0' 'form + 2 -1 0' 'bound 4 0' 'cut 0'
each 'check: forms and cuts' check --profile 3 text result given

totals
