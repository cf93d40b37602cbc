#!/usr/bin/env bash
# docs/layers.svg is the picture that tools/layers makes of crates.txt.
source "$(dirname "$0")/../lib"

python3 tools/layers > "$work/layers.svg"
ok 'the status' [ $? = 0 ]
ok 'docs/layers.svg is older than crates.txt: tools/layers > docs/layers.svg' cmp -s "$work/layers.svg" docs/layers.svg
ok 'it is XML' python3 -c 'import sys, xml.dom.minidom; xml.dom.minidom.parse(sys.argv[1])' "$work/layers.svg"

# names FILE: those in the boxes of a picture
names() {
    sed -nE 's|.*text-anchor="middle">([^<]*)</text>|\1|p' "$1" | sort | paste -sd ' '
}
wanted=$(awk '/^#/ { is_out = /^# measuring/ } /^[a-z_]+:/ && !is_out { sub(/:.*/, ""); print }' crates.txt | sort | paste -sd ' ')
ok 'a box for each crate but those that measure' [ "$(names docs/layers.svg)" = "$wanted" ]
ok 'it stands in docs/ARCHITECTURE.md' grep -qF '](layers.svg)' docs/ARCHITECTURE.md

# A line leads to what no other crate between leads to.
lines crates '# shared: both' 'low: itoa' '# solver' 'middle: low' 'high: low middle' '# measuring' 'bench: high'
python3 tools/layers "$work/crates" > "$work/small.svg"
ok 'three crates' [ "$(names "$work/small.svg")" = 'high low middle' ]
ok 'two lines' [ "$(grep -c '<path ' "$work/small.svg")" = 2 ]
totals
