#!/usr/bin/env bash
# What README.md and examples/README.md show is what the commands print: each line `$ COMMAND` in a block of the shell, and
# the lines after it. Where z3 is not found, or is another one than the text speaks of, its commands are left out.
source "$(dirname "$0")/../lib"

mkdir "$work/top"
ln -s "$PWD/wmax" "$PWD/examples" "$work/top"

# commands FILE: each as $work/N.command with what it has to print as $work/N.printed
commands() {
    rm -f "$work"/*.command "$work"/*.printed
    awk -v folder="$work" '
        /^```sh$/ { is_block = 1; next }
        /^```$/ { is_block = 0; is_command = 0; next }
        is_block && /^\$ / { n++; is_command = 1; print substr($0, 3) > (folder "/" n ".command"); printf "" > (folder "/" n ".printed"); next }
        is_command { print > (folder "/" n ".printed") }' "$1"
}

for page in README.md examples/README.md; do
    commands "$page"
    count=0
    for file in "$work"/*.command; do
        [ -e "$file" ] || continue
        count=$((count + 1))
        case $(cat "$file") in
            z3*) [ "$(z3 --version 2> /dev/null | cut -d ' ' -f 3)" = 4.8.12 ] || { echo "no z3 4.8.12: not tried: $(cat "$file")"; continue; } ;;
        esac
        (cd "$work/top" && timeout 60 bash "$file") > "$work/out" 2>&1 < /dev/null
        [ -z "$(tail -c 1 "$work/out")" ] || echo >> "$work/out"
        ok "$page: $(cat "$file")" cmp -s "$work/out" "${file%.command}.printed"
    done
    ok "$page has commands" [ $count -gt 0 ]
done
totals
