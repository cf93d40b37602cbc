#!/usr/bin/env bash
# The formulas of tests/program/cnf, as hard clauses alone, are refuted, and their certificates pass the checker.
source "$(dirname "$0")/../lib"

# refuted FILE: the hard clauses are found inconsistent, and `wmax check` accepts the certificate
refuted() {
    timeout 60 "$wmax" solve --proof "$work/proof" "$1" > "$work/result" 2> "$work/.err" < /dev/null
    [ $? = 20 ] && [ ! -s "$work/.err" ] && [ "$("$wmax" check "$1" "$work/result" "$work/proof")" = YES ]
}

for cnf in tests/program/cnf/*.cnf; do
    awk '/^[pc]/ { next } { print "h", $0 }' "$cnf" > "$work/hard.wcnf"
    ok "$(basename "$cnf")" refuted "$work/hard.wcnf"
done
totals
