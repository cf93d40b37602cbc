#!/usr/bin/env bash
# tools/build over a few small crates with a stand-in for `rt`: how far it says it is, where it stops, what it shows then, and
# that nothing is left of it however it ends.
source "$(dirname "$0")/../lib"

cp -r tools "$work"
mkdir -p "$work/bin" "$work/crates"/{low,left,right,wmax,other}/src "$work/crates/low"/must-fail{,-more}
printf '%s\n' '# shared' 'low: memchr' 'left: low' 'right: low' '' '# program' 'wmax: left right clap' 'other: low' > "$work/crates.txt"
echo 'Handles allowed: none.' > "$work/HANDLES"
echo 'fn main() {}' > "$work/crates/wmax/src/main.rt"
for crate in low left right other; do echo "fn $crate() {}" > "$work/crates/$crate/src/lib.rt"; done

# The stand-in proves in no time, or waits for a file `go` where SLOW names a crate. Its journal has a line when it begins. What
# passes is kept beside the journal. After a crate that it refuses it goes on for a minute.
cat > "$work/bin/rt" <<'RT'
#!/usr/bin/env bash
[ "$*" = ci ] || exit 7
[ -d .git ] && [ -e HANDLES ] && [ -z "$(ls -d crates/*/{out,must-fail*} 2> /dev/null)" ] || exit 8
echo "$RT_JOBS jobs:" $(ls crates) "$(grep -c : crates.txt)" >> "$JOURNAL"
for name in low left right wmax; do
    [ ! -e "$JOURNAL.kept.$name" ] || { echo "rt: $name is kept: nothing changed"; continue; }
    until [ "$SLOW" != "$name" -o -e "$JOURNAL.go" ]; do sleep 0.1; done
    printf '%s\n' "== $name" "fn $name::good: proved"
    if [ "$name" = "$REFUSED" ]; then
        printf '%s\n' "fn $name::bad: no proof: what it ensures" "rt: $name NOT PROVED"
        for ((k = 0; k < 600; k++)); do sleep 0.1; done
        exit 1
    fi
    touch "$JOURNAL.kept.$name"
    echo "rt: $name proved"
done
mkdir -p crates/wmax/out
[ -n "$LOST" ] || echo wmax > crates/wmax/out/wmax
echo '4 passed, 0 failed'
RT
chmod +x "$work/bin/rt"
export JOURNAL=$work/journal PATH=$work/bin:$PATH

# built LANES REFUSED: the build in so many lanes, where the crate REFUSED is not proved
built() {
    rm -rf "$work"/crates/*/out "$work/wmax"
    out=$(cd "$work" && LANES=$1 REFUSED=$2 SLOW= LOST=${3:-} timeout 40 bash tools/build 2> .err < /dev/null)
    status=$?
    err=$(cat "$work/.err")
}
clean() { # NAME: nothing is left of the build
    ok "$1: nothing is left" [ -z "$(ls -d "$work"/.build.* 2> /dev/null)" ]
}

for lanes in 1 3; do
    rm -f "$JOURNAL"*
    built $lanes none
    ok "$lanes lanes: the status" [ "$status$err" = 0 ]
    ok "$lanes lanes: how far it is" grep -qE '^[0-4] of 4 crates are proved \(about (a minute|[0-9]+ minutes) left\)$' <<< "$out"
    ok "$lanes lanes: the end" [ "$(tail -n 1 <<< "$out")" = 'all 4 crates are proved, and the program is ./wmax' ]
    ok "$lanes lanes: the program" [ "$(cat "$work/wmax" "$work/crates/wmax/out/wmax")" = $'wmax\nwmax' ]
    ok "$lanes lanes: one run, of the crates of the program" [ "$(cat "$JOURNAL")" = "$lanes jobs: left low right wmax 4" ]
    ok "$lanes lanes: the log" [ "$(grep -c '^fn .*proved' "$work/build.log")" = 4 ]
    ok "$lanes lanes: the prover's own lines are not shown" [ -z "$(grep 'fn ' <<< "$out")" ]
    clean "$lanes lanes"
done
built 2 none
ok 'what is kept' [ "$status$err" = 0 -a "$(grep -c 'is kept' "$work/build.log")" = 4 ]

# Proofs that fail: it does not wait for the others.
rm -f "$JOURNAL"*
built 2 left
expect 'a proof that fails' 1 "$out" $'fn left::bad: no proof: what it ensures\nthe crate left was not proved: see build.log'
ok 'a proof that fails: no program' [ ! -e "$work/wmax" ]
ok 'a proof that fails: nothing goes on' [ -z "$(pgrep -f "$work/bin/rt")" ]
ok 'a proof that fails: what was proved is kept' [ -e "$JOURNAL.kept.low" -a ! -e "$JOURNAL.kept.left" ]
clean 'a proof that fails'
built 2 none lost
ok 'no program is left: the status' [ "$status" = 1 ]
ok 'no program is left: the message' [ "$(tail -n 1 <<< "$err")" = 'the program was not built: see build.log' ]
clean 'no program is left'
built none none
expect 'no number of lanes' 1 '' 'LANES=none is no number of lanes'
clean 'no number of lanes'

# Interrupted in the middle.
for signal in INT TERM HUP; do
    rm -rf "$work"/crates/*/out "$work/wmax" "$JOURNAL"*
    (cd "$work" && exec env --default-signal="$signal" LANES=2 SLOW=left REFUSED=none LOST= bash tools/build > .out 2>&1 < /dev/null) &
    build=$!
    for ((k = 0; k < 300; k++)); do
        grep -q '^1 of 4 crates are proved' "$work/.out" 2> /dev/null && break
        sleep 0.1
    done
    kill -s $signal $build
    wait $build
    ok "$signal: the status" [ $? -ge 128 ]
    clean "$signal"
    ok "$signal: nothing goes on" [ -z "$(pgrep -f "$work/bin/rt")" ]
    ok "$signal: no program" [ ! -e "$work/wmax" ]
done

# What a killed build left is removed by the next one.
mkdir -p "$work/.build.99999999/crates"
built 2 none
ok 'what a killed build left' [ "$status" = 0 ]
clean 'what a killed build left'
totals
