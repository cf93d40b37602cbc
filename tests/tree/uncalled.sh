#!/usr/bin/env bash
# Each function of the crates is called by the program, or by what a line of tests/tree/called_from_outside names.
source "$(dirname "$0")/../lib"

# is_clean FOLDER: the list of this folder has no row
is_clean() {
    local rows
    rows=$(python3 tests/tree/uncalled "$1" | grep -E '^(uncalled|idle) [^0-9]') || return 0
    printf '%s\n' "$rows"
    return 1
}

# rows LINE..: the list of $work has these rows alone, but for its last line
rows() {
    [ "$(python3 tests/tree/uncalled "$work" | sed '$d')" = "$(printf '%s\n' "$@")" ]
}

ok 'a function is called by nobody' is_clean .

# What it looks for is found where it stands.
mkdir -p "$work"/crates/{low,high,apart}/src "$work/tests/tree"
lines crates.txt '# planted' 'low:' 'high: low' 'apart:'
lines crates/high/src/main.rt 'use low::parts::{Part, first};' 'fn main() {' '    let part = Part::new(first(1));' \
    '    part.put(2);' '}'
lines crates/apart/src/lib.rt 'pub fn offered() {' '}'
lines tests/tree/called_from_outside '# planted' 'apart::offered # by contract'
planted() { # LINE..: more of the module `low::parts`
    lines crates/low/src/parts.rt 'pub struct Part {' '    size: [u8; 4],' '}' 'impl Part {' \
        '    pub fn new(size: u64) -> Self' '        requires { second size }' '    {' '        Part { size: [0; 4] }' '    }' \
        '    /// As `alone`.' '    pub fn put(&self, more: u64) {' '    }' '}' 'impl Drop for Part {' \
        '    fn drop(&mut self) {' '        let text = "third(1)";' '    }' '}' \
        'pub fn first(x: u64) -> u64 {' '    x' '}' "$@"
}
planted
ok 'what is called is not listed' rows
planted 'fn second(x: u64) -> u64 {' '    second(x)' '}'
ok 'what a contract names, and only itself calls' rows 'uncalled low/src/parts.rt:22 low::parts::second'
planted 'fn third(x: u64) -> u64 {' '    fourth(x)' '}' 'fn fourth(x: u64) -> u64 {' '    x' '}'
ok 'what a text names, and what only that calls' rows 'uncalled low/src/parts.rt:22 low::parts::third' \
    'uncalled low/src/parts.rt:25 low::parts::fourth'
planted 'impl Part {' '    fn alone(&self, offered: u64) -> [u8; 4] {' '        self.size' '    }' '}'
ok 'a method that a comment names' rows 'uncalled low/src/parts.rt:23 low::parts::Part::alone'
planted 'pub fn offered() {' '}'
ok 'a function that has the name of another' rows 'uncalled low/src/parts.rt:22 low::parts::offered'
planted
lines tests/tree/called_from_outside 'apart::offered' 'apart::gone'
ok 'a line that stands for no function' rows 'idle called_from_outside:2 apart::gone'
totals
