#!/usr/bin/env bash
# Each edit that the prover must refuse can be applied: the file is there, and each text to replace stands in it exactly once when
# its turn comes. Whether it is refused, `rt ci`, tests/further and `make edits` try.
source "$(dirname "$0")/../lib"

# the edits that cannot be applied, with the reason
faults=$(python3 - crates/*/must-fail/*.edit crates/*/must-fail-more/*.edit << 'END'
import pathlib, sys

def fault(edit):
    texts = {}
    name = old = None
    pairs = 0
    for line in edit.read_text().split('\n'):
        word, _, rest = line.partition(': ')
        if word == 'file':
            name = edit.parent.parent / rest
            texts.setdefault(name, name.read_text() if name.exists() else '')
        elif word == 'old':
            old = rest
        elif word == 'new':
            count = texts[name].count(old)
            if count != 1 or old == rest:
                return f'{count} times in {name.name}: {old}'
            texts[name] = texts[name].replace(old, rest)
            pairs += 1
    return None if pairs else 'it changes nothing'

for edit in map(pathlib.Path, sys.argv[1:]):
    said = fault(edit)
    if said:
        print(f'{edit}: {said}')
END
) || faults="${faults}python3 failed"
printf '%s' "${faults:+$faults$'\n'}"
ok 'each edit can be applied' [ -z "$faults" ]
totals
