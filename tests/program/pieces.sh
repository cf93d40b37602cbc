#!/usr/bin/env bash
# `wmax check` judges a certificate while it is read: from a file, a pipe and a FIFO, up to the first faulty line, and in
# memory that does not grow with the certificate.
source "$(dirname "$0")/../lib"

call check "$PWD/examples/mul8.wcnf" "$PWD/examples/mul8.result" "$PWD/examples/mul8.lrat"
expect 'a file' 0 YES ''
mkfifo "$work/fifo"
cat examples/mul8.lrat > "$work/fifo" &
call check "$PWD/examples/mul8.wcnf" "$PWD/examples/mul8.result" fifo
expect 'a FIFO' 0 YES ''
out=$("$wmax" check examples/mul8.wcnf examples/mul8.result <(cat examples/mul8.lrat) 2> "$work/.err")
status=$?
err=$(cat "$work/.err")
expect 'a pipe' 0 YES ''
call check "$PWD/examples/mul8.wcnf" "$PWD/examples/mul8.result" .
expect 'a folder is no certificate' 3 '' 'error: Read .'

# A certificate of a hundred megabytes, and what follows its first faulty line, which is not read.
lines text 'h 1 2 0' 'h -1 2 0' 'h 1 -2 0' 'h -1 -2 0'
lines result 's UNSATISFIABLE'
many() {
    awk 'BEGIN { for (i = 5; i < 3000005; i++) { print i, "2 0 1 2 0"; print i, "d", i, 0 } print "3000005 2 0 1 2 0"; print "3000006 0 3000005 3 4 0" }'
}
peak() {
    many > "$work/fifo" &
    (cd "$work" && /usr/bin/time -o peak -f %M "$wmax" check text result fifo)
}
ok 'a certificate of a hundred megabytes' [ "$(peak)" = YES ]
ok "it takes little memory: $(cat "$work/peak") kB" [ "$(cat "$work/peak")" -lt 16384 ]

# A definition of the greatest variable: no count of each literal up to it is kept.
lines proof '5 134217727 1 0 0' '6 2 0 1 2 0' '7 0 6 3 4 0'
out=$(cd "$work" && /usr/bin/time -o peak -f %M "$wmax" check text result proof)
ok 'the greatest variable' [ "$out" = YES ]
ok "it takes little memory: $(cat "$work/peak") kB" [ "$(cat "$work/peak")" -lt 300000 ]

lines proof '5 d 9 0'
out=$(cd "$work" && { cat proof; yes 2> /dev/null; } | timeout 20 "$wmax" check text result /dev/stdin 2> .err)
status=$?
err=$(cat "$work/.err")
expect 'what follows a faulty line is not read' 1 'NO DeadId 1' ''
totals
