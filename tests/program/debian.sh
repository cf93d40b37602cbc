#!/usr/bin/env bash
# examples/debian.py on small made-up lists of packages and on CUDF, against all choices of packages.
source "$(dirname "$0")/../lib"

timeout 600 python3 tests/program/debian.py "$wmax" > "$work/said" 2>&1
sed '$d' "$work/said"
if [[ $(tail -n 1 "$work/said") =~ ^([0-9]+)\ passed,\ ([0-9]+)\ failed$ ]]; then
    passed=${BASH_REMATCH[1]}
    failed=${BASH_REMATCH[2]}
else
    tail -n 1 "$work/said"
    ok 'debian.py: it ended' false
fi

# The command line, and a list that is compressed.
lines status 'Package: a' 'Version: 1' 'Status: install ok installed' 'Architecture: all'
mkdir "$work/lists"
printf '%s\n' 'Package: b' 'Version: 1' 'Architecture: all' 'Depends: a (>= 1~)' | gzip > "$work/lists/made_up_Packages.gz"
# debian WORD..: the program on these
debian() {
    out=$(WMAX=$wmax timeout 60 examples/debian.py --architecture amd64 --status "$work/status" --lists "$work/lists" "$@" 2> "$work/.err")
    status=$?
    err=$(cat "$work/.err")
}
debian install b
expect 'a plan' 0 $'install   b 1\nIt costs: removed 0, changed 1, recommends 0, size 0; nothing is better, which was checked.\n  b is changed' ''
debian install b remove a
expect 'no plan' 1 $'This cannot be, which was checked:\n  b 1 needs a (>= 1~)\n  b is to be there\n  a is to be removed' ''
debian install c
expect 'no such package' 2 '' 'debian.py: no package is c: run apt-get update'
lines status 'no field'
debian upgrade
expect 'a faulty list' 2 '' 'debian.py: no field: no field'
totals
