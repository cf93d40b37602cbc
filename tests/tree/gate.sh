#!/usr/bin/env bash
# tests/gate with a stand-in for `rt` and for the scripts: which edits `rt ci` is given, what it is run on, what is taken from it,
# and what the last line and the status say.
source "$(dirname "$0")/../lib"

mkdir -p "$work/bin" "$work/tests" "$work/crates"/{low,high,wmax}/src "$work/crates/low"/must-fail{,-more} "$work/crates/high/must-fail-more"
cp tests/gate tests/further "$work/tests"
cp -r tools "$work"
printf '%s\n' 'low:' 'high: low' 'wmax: high' {render,propagate,relaxation}_bench: > "$work/crates.txt"
echo 'Handles allowed: none.' > "$work/HANDLES"
echo first > "$work/crates/low/must-fail/plain.edit"
for edit in a b c d e f g h i j; do echo $edit > "$work/crates/low/must-fail-more/$edit.edit"; done
echo other > "$work/crates/high/must-fail-more/other.edit"

# The stand-in for `rt ci` tells which edits there are, and leaves programs. PROVES is `no` where nothing is proved.
cat > "$work/bin/rt" <<'RT'
#!/usr/bin/env bash
[ "$*" = ci ] && [ -d .git ] && [ -e HANDLES ] && [ -z "$(ls -d crates/*/out 2> /dev/null)" ] || exit 8
(cd crates && ls */must-fail/*.edit) > "$JOURNAL"
pwd >> "$JOURNAL.where"
if [ "$PROVES" = no ]; then
    echo '0 passed, 2 failed'
    exit 1
fi
for program in wmax {render,propagate,relaxation}_bench; do
    mkdir -p crates/$program/out
    printf '#!/bin/sh\necho new\n' > crates/$program/out/$program
    chmod +x crates/$program/out/$program
done
echo '5 passed, 0 failed'
RT
printf '%s\n' '#!/usr/bin/env bash' './wmax > "$JOURNAL.ran"' 'echo "${SCRIPTS:-7 passed, 0 failed}"' '[ -z "$SCRIPTS" ]' > "$work/tests/all"
chmod +x "$work/bin/rt" "$work/tests/all"
export JOURNAL=$work/journal
mkdir -p "$work/crates/wmax/out"

# gated: the gate, where an earlier program lies in the checkout
gated() {
    rm -f "$JOURNAL"*
    printf '#!/bin/sh\necho old\n' > "$work/crates/wmax/out/wmax"
    chmod +x "$work/crates/wmax/out/wmax"
    out=$(cd "$work" && PATH="$work/bin:$PATH" timeout 60 bash tests/gate 2> .err < /dev/null)
    status=$?
    err=$(cat "$work/.err")
}

PROVES=yes SCRIPTS= gated
ok 'the status' [ "$status$err" = 0 ]
ok 'the last line' [ "$(tail -n 1 <<< "$out")" = '12 passed, 0 failed' ]
ok 'one further edit of the crate whose turn it is' [ "$(cat "$JOURNAL")" = $'high/must-fail/further-other.edit\nlow/must-fail/plain.edit' ]
ok 'the scripts run on the new program' [ "$(cat "$JOURNAL.ran")" = new ]
ok 'the programs are in the checkout' [ "$(for it in "$work"/{wmax,crates/*/out/*}; do "$it"; done)" = $'new\nnew\nnew\nnew\nnew' ]
ok 'no edit stays in the checkout' [ "$(ls "$work"/crates/*/must-fail)" = plain.edit ]
ok 'the copy is gone' [ ! -e "$(cat "$JOURNAL.where")" ]
(cd "$work" && git init -q . && git -c user.name=a -c user.email=a@b.c commit -q --allow-empty -m one) 2> /dev/null
PROVES=yes SCRIPTS= gated
ok 'at the next commit eight of another crate' [ "$(cat "$JOURNAL")" = "$(printf 'low/must-fail/%s\n' further-{a,b,c,d,e,f,g,h}.edit plain.edit)" ]
ok 'a crate by name' [ "$(cd "$work" && mkdir -p to && tests/further --into to high && ls to/crates/high/must-fail)" = $'high: 1 of 1 further edits\nfurther-other.edit' ]
PROVES=yes SCRIPTS='6 passed, 1 failed' gated
ok 'a script that fails' [ "$status$(tail -n 1 <<< "$out")" = '111 passed, 1 failed' ]
PROVES=no SCRIPTS= gated
ok 'a proof that fails: the status' [ "$status" = 1 ]
ok 'a proof that fails: the last line' [ "$(tail -n 1 <<< "$out")" = '0 passed, 6 failed' ]
ok 'a proof that fails: no script runs on an old program' [ ! -e "$JOURNAL.ran" ]

totals
