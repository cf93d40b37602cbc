#!/usr/bin/env bash
# tests/soak for two seconds, and that it tells programs that lie.
source "$(dirname "$0")/../lib"
top=$PWD

soaked() { # PROGRAM
    out=$(cd "$work" && WMAX=$1 timeout 300 "$top/tests/soak" 2 2>&1)
    status=$?
}

soaked "$wmax"
ok "nothing is wrong: $out" [ "$status" = 0 -a "$(grep -cE '^[1-9][0-9]* passed, 0 failed$' <<< "$out")" = 1 ]

lies() { # NAME COMMAND SED: a program that does as wmax, but for what this makes of the output of a command
    printf '#!/bin/sh\n[ "$1" = %s ] || exec "%s" "$@"\nout=$("%s" "$@")\nstatus=$?\nprintf "%%s\\n" "$out" | sed "%s"\nexit $status\n' \
        "$2" "$wmax" "$wmax" "$3" > "$work/liar"
    chmod +x "$work/liar"
    soaked "$work/liar"
    ok "$1: told" [ "$status" = 1 -a "$(grep -c '^FAILED seed ' <<< "$out")" -gt 0 ]
    ok "$1: the files" [ -n "$(find "$work/soak.failed" -name text)" ]
    rm -rf "$work/soak.failed"
}
lies 'a higher cost' solve 's/^o \\(.*\\)/o 1\\1/'
lies 'other bits' solve '/^v/y/01/10/'
lies 'all certificates are right' check 's/^NO.*/YES/'
lies 'no certificate is right' check 's/^YES/NO NoEmptyClause 0/'
lies 'a clause is left out' explain '/^+/d'
lies 'a higher lower bound' lower 's/^at least \\(.*\\)/at least 1\\1/'
totals
