#!/usr/bin/env bash
# Counts, at a commit (by default the last one), the lines of src/ that may be places for today's forms, point by point. docs/DESIGN-PASS.md
# tells what each line found is.
set -eu
cd "$(dirname "$0")/.."
at=${1:-HEAD}
count() {
    local label=$1 pattern=$2
    printf '%-58s %s\n' "$label" "$(git grep -hE "$pattern" "$at" -- 'crates/*/src/*.rt' | wc -l)"
}
count '1 enums' '^ *(pub(\([a-z]+\))? )?enum '
count '1 results with a number as the error' 'Result<[^>]*, u(8|32)>'
count '1 constants that number something' 'const [A-Z_]+: u(8|32) = [0-9]+;'
count '1 flags among fields and parameters' '^ +(pub )?[a-z_]+: bool,'
count '1 numbers in place of kinds and refusals' '(refusal|kind|number): u(8|32)'
count '1 a number for none' 'usize::MAX|ABSENT'
printf '%-58s %s\n' '2 names that more than one function has' "$(git grep -hoE '^ *(pub(\([a-z]+\))? )?fn [a-z_]+' "$at" -- 'crates/*/src/*.rt' | sed 's/.*fn //' | sort | uniq -d | wc -l)"
count '3 while, loop, and for over a range' '^ *(while|loop)\b|for [a-z_]+ in [^&]*\.\.|= loop'
count '3 of these, with a named counter' '^ *(while|loop)\b|for [a-z][a-z_]* in [^&]*\.\.|= loop'
count '4 functions that convert, compare or spell by hand' 'fn (number|word|yes|words|mark|letter|verdict_number|kind_of|cause_words|row|zero|is_present|present_or_past|present_or_future|yes_if|not|and|or|told|plus|sum|numeral|agrees|answered)\b'
count '4 impls of Display, From and TryFrom' '^impl.* (fmt::)?(Display|From<[A-Za-z_:]*>|TryFrom<[a-z0-9]*>) for'
count '6 fields that are arrays, Vecs or lengths' '^ +(pub(\([a-z]+\))? )?([a-z_]+: (\[[A-Za-z]|Vec<)|len: usize)'
count '7 dyn, function pointers, matches on a kind' 'dyn |: fn\(|match (record\.)?kind'
