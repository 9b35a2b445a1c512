#!/usr/bin/env bash
# Where src/ may still read like an older Rattle: for each point of docs/DESIGN-PASS.md the lines that its
# commands find, and how many. `tools/places.sh` looks at the files here, `tools/places.sh COMMIT` at those of
# a commit; with `-l` in front the lines are printed too.
set -eu
cd "$(dirname "$0")/.."
list=
if [ "${1:-}" = -l ]; then
    list=1
    shift
fi
if [ $# -gt 0 ]; then
    from=$(mktemp -d)
    trap 'rm -rf "$from"' EXIT
    git archive "$1" crates | tar x -C "$from"
    cd "$from"
fi
sources=$(find crates -path '*/src/*.rt' -not -path '*/out/*' | sort)

# count NAME PATTERN: the lines of src/ that the pattern finds
count() {
    local found
    found=$(grep -nE "$2" $sources || true)
    printf '%-9s %4d\n' "$1" "$(printf '%s' "$found" | grep -c '' || true)"
    if [ -n "$list" ]; then printf '%s\n' "$found" | sed 's/^/    /'; fi
}

count 1-tags '[Tt]ag\b|changed: bool'
count 1-codes ': u(8|16) = [0-9]|match number\b|-> \(u8,'
count 1-laws '^pub fn [a-z_0-9]+\(\)'
count 1-zeros '^pub fn [a-z_0-9]+\(\) -> u8$'
echo "2-names   $(grep -ohE '\bfn [a-z_0-9]+' $sources | sort | uniq -d | wc -l)"
[ -z "$list" ] || grep -ohE '\bfn [a-z_0-9]+' $sources | sort | uniq -c | awk '$1 > 1' | sed 's/^/    /'
echo "2-types   $(grep -hE '^(pub |pub\(crate\) )?(struct|enum)' $sources | sed 's/[<({ ]*$//' | sort | uniq -d | wc -l)"
count 2-all '^(pub |pub\(crate\) )?(struct|enum) '
count 3-loops '\bfor [^ ]+ in |\bfor \(.*\) in |\bwhile |\bloop \{'
count 3-counts 'number \+ 1|place \+ 1|number\.saturating_add\(1\)'
count 4-impls '^impl.*\b(From|TryFrom|Display|PartialEq|Ord)\b'
count 4-names 'fn (same_|equal|to_|read_|without_|placed|[a-z]+_function\(|untyped)'
count 4-casts ' as (u8|u16|u32|u64|usize|char)\b'
count 5-children 'children: \[u32; 8\]'
count 5-texts 'arena: &.*row: &'
count 5-stores '(store|opened) [a-z]+\.|\((store|opened) [a-z]+\.|loose [a-z]+\.'
count 5-fields '(fields_of|all_fields|declared_in|field_of) '
count 6-buffers '^ *(pub |pub\(crate\) )?[a-z_]+: (\[[A-Za-z0-9]+; [0-9A-Z_]+\]|Vec<.*>),$'
count 7-switches 'dyn |Box<|: fn\(|impl Fn|: Fn(Once|Mut)?\(|match .*_function\(|match .*::try_from'
for crate in crates/*; do
    [ -d "$crate/proofs" ] || continue
    files=$(find "$crate/proofs" -name '*.antt')
    echo "8-proofs  $(basename "$crate"): $(cat $files /dev/null | wc -l) lines, $(echo "$files" | grep -c Answers || true) files of answers"
done
