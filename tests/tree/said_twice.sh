#!/usr/bin/env bash
# No law and no definition stands twice, no two laws have the same type up to the names of variables, and each lemma is
# named: by another lemma, an answer or a line of code.
source "$(dirname "$0")/../lib"

# stands_once FOLDER: the list of this folder has no row
stands_once() {
    local rows
    rows=$(python3 tests/tree/said_twice --types "$1" | grep -E '^(twice|alone|alike) [^0-9]') || return 0
    printf '%s\n' "$rows"
    return 1
}

ok 'a law stands twice, or serves nothing' stands_once .

# What it looks for is found where it stands.
proofs=$work/crates/planted/proofs
mkdir -p "$proofs"
lines crates/planted/proofs/First.antt \
    'pub halves : (n : ℕ) → n / 2 + (n + 1) / 2 ≡ n' 'halves n = omega (arith, n, n + 1, n / 2)' \
    '' 'pub used : (n : ℕ) → n ≡ n' 'used n = halves n'
lines crates/planted/proofs/Second.antt 'third : (n : ℕ) → n ≡ n' 'third n = used n ∙ third n'
ok 'a lemma that only names itself is passed over' [ "$(python3 tests/tree/said_twice "$work")" = \
    "alone planted/proofs/Second.antt:1 third
twice 0, alone 1" ]
lines crates/planted/proofs/Second.antt \
    'parts : (n : ℕ) → n / 2 + (n + 1) / 2 ≡ n' 'parts n = omega (arith, n, n + 1, n / 2)' '' '-- parts'
ok 'a law under another name is passed over' [ "$(python3 tests/tree/said_twice "$work" | sed -n 1p)" = \
    'twice planted/proofs/First.antt:1 halves; planted/proofs/Second.antt:1 parts' ]
mkdir -p "$work/crates/planted/src"
lines crates/planted/src/lib.rt '#[tactic(auto, using(crate::proofs::Second::parts, crate::proofs::First::used))]'
ok 'a lemma that code names counts as one that nothing names' [ "$(python3 tests/tree/said_twice "$work" | tail -n 1)" = \
    'twice 1, alone 0' ]
lines crates/planted/proofs/First.antt 'pub adds : (m n : ℕ) → m + n ≡ n + m' 'adds m n = omega arith'
lines crates/planted/proofs/Second.antt 'swaps : (b a : ℕ) → b + a ≡ a + b' 'swaps b a = sym (adds a b)'
ok 'a law with the same type and another body is passed over' [ \
    "$(python3 tests/tree/said_twice --types "$work" | grep alike | sed -n 1p)" = \
    'alike planted/proofs/First.antt:1 adds; planted/proofs/Second.antt:1 swaps' ]
ok 'a row of `alike` is no fault' [ -n "$(stands_once "$work" | grep alike)" ]
totals
