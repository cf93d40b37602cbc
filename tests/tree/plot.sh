#!/usr/bin/env bash
# The picture of a table of bench/maxsat: a line for each solver, with the instances that it solved.
source "$(dirname "$0")/../lib"

cat > "$work/table" <<'TABLE'
instance             clauses  wmax-1 cost      wmax-3 cost         z3 cost      proof MB  check s
random 30 1              180    0.05 12          0.04 12          0.05 12            0.10     0.01
random 30 2              180    3.00 <=20        0.90 19          0.04 14            0.20     0.01
set_cover 30 1            90    3.00 -           3.00 <=50        3.00 <=44             -        -
package_choice 60 1      190    0.00 unsat       0.00 unsat       0.02 unsat         0.00     0.00
solved of                  4       2                3                3
faults: 0
TABLE
bash bench/maxsat --plot "$work/table" > "$work/plot.svg"
ok 'the status' [ $? = 0 ]
ok 'it is XML' python3 -c 'import sys, xml.dom.minidom; xml.dom.minidom.parse(sys.argv[1])' "$work/plot.svg"
ok 'a line for each solver' [ "$(grep -c '<path ' "$work/plot.svg")" = 3 ]
for name in 'wmax-1 (2)' 'wmax-3 (3)' 'z3 (3)'; do
    ok "$name" grep -qF ">$name</text>" "$work/plot.svg"
done
ok 'of all instances' grep -qF 'Instances solved, of 4<' "$work/plot.svg"
ok 'a step for each solution' [ "$(grep -o 'V[0-9.]*' "$work/plot.svg" | wc -l)" = 8 ]
: > "$work/table"
bash bench/maxsat --plot "$work/table" > "$work/plot.svg" 2> "$work/.err"
ok 'no table' [ $? = 1 -a -s "$work/.err" ]
totals
