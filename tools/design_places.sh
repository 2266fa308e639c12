#!/usr/bin/env bash
# Lists the places that docs/DESIGN-PASS.md counts, point by point: bash tools/design_places.sh [-c] [COMMIT]
# Without a commit it reads the files as they stand; with -c it prints the counts alone.
cd "$(dirname "$0")/.." || exit 1
counts=
[ "$1" = -c ] && { counts=1; shift; }
commit=$1

# Prints the lines of src/ that match a pattern, under a heading with their number.
places() {
    local found
    found=$(git grep -nE "$2" $commit -- 'crates/*.rt')
    printf '%-62s %3d\n' "$1" "$(printf '%s' "$found" | grep -c .)"
    [ -n "$counts" ] || { [ -z "$found" ] || printf '%s\n' "$found" | sed 's/^/    /'; }
}

places '1a refusals put together field by field' '(return|=>|^) *(Err\()?Refusal \{$'
places '1b numbers in place of kinds or of an absent value' '\bn\[[0-9]\]|fn misplaced.*Option<u64>|Some\(Key::[A-Za-z]+\.code\(\)\)|u64; NUMBER_COUNT\]|Ok\(0\)'
places '1c matches that only turn an Option or Result into another' 'Err\(_\) =>|None => (Err|None|Ok|true|false)|Some\([a-z]+\) => (Ok|Some|Err)|Ok\(_\) => None|Err\([a-z]+\) => Some'
places '1d own enums' '^\s*(pub(\(crate\))? )?enum '
places '2  functions and types, read for twins' '^\s*(pub(\(crate\))? )?((extern "C" )?fn|struct|enum|trait) '
places '3a loops' "^\s*('[a-z]+: )?(for|while|loop)\b"
places '3b of these, with an index or a rest counted by hand' "for [a-z] in 0\.\.|^\s*('[a-z]+: )?while |^\s*loop \{"
places '4a comparisons, copies and conversions written by hand' '^impl.*\b(PartialEq|Eq|PartialOrd|Ord|Clone|Copy|From|TryFrom)\b.* for |fn (is_same|same_number|are_like)\b'
places '4b parts printed one by one' 'println!.*\{\} \{'
places '4c casts' ' as (u8|u32|u64|usize)\b'
places '5a premises' '^\s*requires\b'
places '5b of these, a fact of the text and a place, of a table, of a header' 'requires.* (at ≤ length text\.now|TableOf head\.now self\.now|Small self\.now|Present|Complete) '
places '5c parameters that travel together' 'fn .*(text: &(.a )?\[u8\], (at|start|from|parts): |head: &(.a )?\[u8\], [a-z]+: |view: View, )'
places '5d functions of three parameters or more' 'fn [a-z_]+(<[^(]*>)?\(([^,()]+, ){2,}[^,()]+\)'
places '6  lengths beside buffers, arrays by code' '^\s*(pub(\(crate\))? )?count: usize,|\[Span; MOST_LINES\]|\[u64; NUMBER_COUNT\]'
places '7  switches on a step or a kind' 'match (self|view|Lookahead::at\(.*\)|command\.as_str\(\)) \{'
for crate in $(sed -n 's/^\([a-z]*\)[: ].*/\1/p' crates.txt); do
    list() { if [ -n "$commit" ]; then git ls-tree -r --name-only "$commit" -- "crates/$crate/proofs"; else git ls-files -- "crates/$crate/proofs"; fi; }
    show() { if [ -n "$commit" ]; then git show "$commit:$1"; else cat "$1"; fi; }
    lines=$(list | while read -r file; do show "$file"; done | wc -l)
    printf '%-62s %3d, %d lines\n' "8  proof files of $crate" "$(list | grep -c .)" "$lines"
done
