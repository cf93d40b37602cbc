#!/usr/bin/env bash
# Texts with one clause or one literal more than may be: the fault is at the line of that one, and not before.
source "$(dirname "$0")/../lib"

# one_more NAME LINE AWK: the text that awk prints has its first fault on that line
one_more() {
    out=$(awk "BEGIN { $3 }" | timeout 300 "$wmax" encode /dev/stdin 1 2> "$work/.err")
    status=$?
    err=$(cat "$work/.err")
    expect "$1" 2 '' "error: line $2: TooMany"
}

one_more 'hard clauses' 4194305 'for (i = 0; i <= 4194304; i++) print "h 1 0"'
one_more 'soft clauses' 262145 'for (i = 0; i <= 262144; i++) print "1 1 0"'
long='s = "h"; for (i = 0; i < 1024; i++) s = s " 1"; for (i = 0; i < 65536; i++) print s " 0";'
one_more 'literals' 65537 "$long"' print "h 1 0"'
one_more 'literals of a soft clause' 65537 "$long"' print "1 -1 0"'
totals
