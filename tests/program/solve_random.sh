#!/usr/bin/env bash
# `wmax solve` on random instances, against the least cost that a search over all assignments finds.
# Each certificate is checked by `wmax check`; a result without one is checked as far as its bits and cost.
source "$(dirname "$0")/../lib"

# the word after the first in the last line of the result that begins so
last() { # WORD
    sed -n "s/^$1 *//p" "$work/result" | tail -n 1
}

# an optimum or an inconsistency, as the search over all assignments says, with a certificate
is_right() { # WANTED
    case $status in
        30) [ "$(last s)" = 'OPTIMUM FOUND' ] && [ "$(last o)" = "$1" ] ;;
        20) [ "$(last s)" = UNSATISFIABLE ] && [ "$1" = none ] ;;
        *) false ;;
    esac && [ "$("$wmax" check $profile "$text" "$work/result" "$work/proof")" = YES ]
}

# what was found before the effort ran out: bits of the cost that was told last, or nothing
is_honest() {
    local wanted
    wanted="NO StatusWithoutProof $(grep -n '^s ' "$work/result" | cut -d : -f 1)"
    case $status in
        10) [ "$(last s)" = SATISFIABLE ] ;;
        0) [ "$(last s)" = UNKNOWN ] ;;
        *) false ;;
    esac && [ "$("$wmax" check $profile "$text" "$work/result" "$work/proof")" = "$wanted" ]
}

answers() { # WANTED WORD..: solves with these words, and looks at what is answered, and that no more is told than has to be
    local wanted=$1 told=
    shift
    grep -qE '^[[:space:]]*[h0-9]' "$text" || told='warning: no clause was read'
    timeout 60 "$wmax" solve "$@" --proof "$work/proof" "$text" > "$work/result" 2> "$work/.err" < /dev/null
    status=$?
    [ "$(< "$work/.err")" = "$told" ] && { is_right "$wanted" || { [ "$bounded" = yes ] && is_honest; }; }
}

awk -v dir="$work" -v count=400 -f tests/program/random.awk > "$work/wanted"
while read -r number wanted; do
    text=$work/$number.wcnf
    for profile in '--profile 1' '--profile 2' '--profile 3'; do
        bounded=no
        ok "instance $number, $profile" answers "$wanted" $profile
        bounded=yes
        ok "instance $number, $profile, little effort" answers "$wanted" $profile --conflicts $((number % 9))
    done
done < "$work/wanted"
totals
