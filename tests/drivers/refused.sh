#!/usr/bin/env bash
# Engines and solvers of which each allocation is refused in turn: `Solver::new` fails, or the call answers `Memory` and each later
# one `Failed`; the lines are steps also then. The driver is built once, by `rt try`. It makes N - 1, N - 2, .. allocations before
# those that are tried, so that the Nth of all is each of them in turn, from the first one on.
source "$(dirname "$0")/../lib"
uses='cnf clauses propagate cdcl lrat_log lrat_check'
most=400
# shellcheck disable=SC2086
copied $uses
echo "drive: $uses" >> "$work/crates.txt"
mkdir -p "$work/crates/drive/src" "$work/cases"
cp tests/drivers/refused.drive "$work/crates/drive/src/main.rt"
for ((before = 0; before < most; before++)); do
    echo $before > "$work/cases/$before"
done
(cd "$work/crates/drive" && "${RT:-rt}" try --steps 1000 --seconds 400 --fail-alloc $most --cases "$work/cases") > "$work/log" 2>&1
# told WORD: how many runs say that
told() {
    grep -cx "$1" "$work/log"
}
ok "$(grep -m 1 -E '^(wrong|src|rt:)' "$work/log"): all runs end well" test "$(grep -c '^refused ' "$work/log")" = $most
grep '^wrong' "$work/log" | sort | uniq -c
for word in engine new add_clause solve; do
    ok "some allocation of $word is refused" test "$(told "refused $word")" -gt 0
done
# With none made before, the Nth comes after all that are tried.
ok 'each allocation is met' test "$(grep -x -A 1 '== 0' "$work/log" | tail -n 1)" = 'refused nowhere'
totals
