#!/usr/bin/env bash
# No six lines of code in a row stand twice in the same shape, and no twenty of a proof, but for what a line of
# tests/tree/same_shape_allowed names.
source "$(dirname "$0")/../lib"

# is_clean WORD..: the list has no row
is_clean() {
    local rows
    rows=$(python3 tests/tree/same_shape "$@")
    [ "$rows" = 'twice 0' ] && return
    printf '%s\n' "$rows"
    return 1
}

# rows NAME LINE..: the list of $work, with --proofs where WORDS has it, is these
rows() {
    local name=$1
    shift
    ok "$name" [ "$(python3 tests/tree/same_shape ${WORDS:-} "$work")" = "$(printf '%s\n' "$@")" ]
}

ok 'lines of code stand twice' is_clean .
ok 'lines of proofs stand twice' is_clean --proofs .

# What it looks for is found where it stands.
src=crates/planted/src
mkdir -p "$work/$src" "$work/crates/planted/proofs" "$work/tests/tree"
first=('fn first(a: u64, list: &mut Vec<u64>) -> u64 {' '    let b = a + 1;' '    list.push(b);' '    let c = b.min(7);' \
    '    list.push(c);' '    if c > b {' '        return a;' '    }' '    list.len()' '}')
lines $src/lib.rt "${first[@]}" '/// Others are called otherwise.' 'fn second(x: u64, all: &mut Vec<u64>) -> u64' \
    '    ensures { result ≡ x }' '{' '    // as before' '    let y = x + 1;' '    all.push(y);' '    let z = y.min(7);' \
    '    all.push(z);' '    if z > y {' '        return x;' '    }' '    all.len()' '}'
rows 'seven lines with other names' "7 lines: planted/src/lib.rt:2 planted::lib::first; planted/src/lib.rt:16 planted::lib::second" \
    'twice 1'
lines tests/tree/same_shape_allowed 'planted::lib::second planted::lib::first # by contract'
rows 'a pair that is allowed' 'twice 0'
lines tests/tree/same_shape_allowed '# none' 'planted::lib::first planted::lib::third'
rows 'a pair that is none' "7 lines: planted/src/lib.rt:2 planted::lib::first; planted/src/lib.rt:16 planted::lib::second" \
    'idle same_shape_allowed:2 planted::lib::first planted::lib::third' 'twice 1'
rm "$work/tests/tree/same_shape_allowed"
cp "$work/$src/lib.rt" "$work/whole"
for change in 's/z > y/z < y/' 's/let z = y.min(7)/let z = x.min(7)/' 's/all.push(z)/all.insert(z)/' 's/y.min(7)/y.max(7)/'; do
    sed "11,\$$change" "$work/whole" > "$work/$src/lib.rt"
    rows "another shape, $change" 'twice 0'
done
lines $src/lib.rt 'struct First {' '    a: u64,' '    b: u64,' '    c: u64,' '    d: u64,' '    e: u64,' '    f: u64,' '}' \
    'struct Second {' '    a: u64,' '    b: u64,' '    c: u64,' '    d: u64,' '    e: u64,' '    f: u64,' '}'
rows 'what is no body of a function' 'twice 0'
WORDS=--proofs
for count in 19 20; do
    for name in First Second; do
        for ((at = 1; at <= count; at++)); do echo "  step_$at = trans (add_$at a) refl"; done > "$work/crates/planted/proofs/$name.antt"
    done
    [ $count = 20 ] && found='20 lines: planted/proofs/First.antt:1 planted/proofs/First.antt; planted/proofs/Second.antt:1 planted/proofs/Second.antt'
    rows "$count lines of a proof" ${found:+"$found"} "twice $((count - 19))"
done
totals
