#!/usr/bin/env bash
# The comparator of random instances in each profile that has one: each clause of a greater bound has one of a smaller bound as a subset.
# So a solver may keep what it learned when the bound falls.
source "$(dirname "$0")/../lib"

awk -v dir="$work" -v count=150 -f tests/program/random.awk > "$work/wanted"
while read -r number wanted; do
    text=$work/$number.wcnf
    for profile in 1 2; do
        # No cost reaches the greatest bound, so that its comparator is empty: what stands before a comparator.
        "$wmax" encode --profile $profile "$text" 4611686018427387903 > "$work/fixed"
        for bound in 1 2 3 5 8 13 21 34 100 1000 100000; do
            "$wmax" encode --profile $profile "$text" $bound > "$work/bound.$bound"
        done
        ok "instance $number, profile $profile" awk '
            FNR == 1 { file++ }
            file == 1 { fixed = FNR; next }
            FNR <= fixed { next }
            { clause[file, ++count[file]] = $0 }
            function is_subset(a, b,    n, k, words) {
                n = split(a, words, " ")
                for (k = 1; k < n; k++) if (index(" " b, " " words[k] " ") == 0) return 0
                return 1
            }
            function is_covered(c, f,    k) {
                for (k = 1; k <= count[f]; k++) if (is_subset(clause[f, k], c)) return 1
                return 0
            }
            END {
                for (f = 2; f < file; f++) for (k = 1; k <= count[f + 1]; k++)
                    if (!is_covered(clause[f + 1, k], f)) exit 1
            }' "$work/fixed" "$work"/bound.1 "$work"/bound.2 "$work"/bound.3 "$work"/bound.5 "$work"/bound.8 "$work"/bound.13 \
            "$work"/bound.21 "$work"/bound.34 "$work"/bound.100 "$work"/bound.1000 "$work"/bound.100000
    done
done < "$work/wanted"
totals
