#!/usr/bin/env bash
# The checker uses nothing of the solver: no crate of the checker, and none that it stands on, stands on a crate of the
# solver by crates.txt, and no line of its code, definitions or proofs names one.
source "$(dirname "$0")/../lib"

# section NAME: the crates under this heading of crates.txt
section() {
    awk -v name="$1" '/^#/ { is_here = $2 ~ "^" name ":?$" } /^[a-z]/ && is_here { sub(/:.*/, ""); print $1 }' crates.txt
}
solver=$(section solver)
apart="$(section shared) $(section checker)"
any=$(tr '\n' '|' <<< "$solver" | sed 's/|$//')

# naming FOLDER: the lines that name a crate of the solver: `use cdcl::`, `cdcl::solver::Solver`, `Rattle.cdcl.specs`
naming() {
    grep -rnE --include='*.rt' --include='*.antt' "(^|[^A-Za-z0-9_:.])($any)::|Rattle\.($any)\." "$1"
}

# is_apart CRATE: no line of it names the solver
is_apart() {
    local found
    found=$(naming "crates/$1") || return 0
    head -n 5 <<< "$found"
    return 1
}

# stands_apart CRATE: nothing that it stands on is of the solver
stands_apart() {
    ! tools/below "$1" | grep -qxE "$any"
}

ok 'crates.txt says which crates are the checker and the solver' [ -n "$(section checker)" -a -n "$solver" ]
for crate in $apart; do
    ok "$crate stands on a crate of the solver" stands_apart "$crate"
    ok "$crate names a crate of the solver" is_apart "$crate"
done

# What it looks for is found where it stands.
mkdir -p "$work/src"
for line in 'use cdcl::solver::Solver;' '    let log = lrat_log::log::Log::new(alloc);' \
    'use Rattle.propagate.specs.Trail.{trail}' 'ghost use Rattle.reconstruction.specs.Removals.{extended};'; do
    printf '%s\n' "$line" > "$work/src/planted.rt"
    ok "a planted line is not seen: $line" naming "$work/src" > /dev/null
done
printf '%s\n' 'use crate::improve::x;' 'use wcnf::types::Lit;' 'let cdcl = 1;' > "$work/src/planted.rt"
ok 'a line that names none is taken for one' [ -z "$(naming "$work/src")" ]
totals
