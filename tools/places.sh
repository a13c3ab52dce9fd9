#!/usr/bin/env bash
# Lists the places where docs/DESIGN-PASS.md looked, point by point; each is then judged by reading.
# tools/places.sh [FOLDER]   FOLDER is a checkout, by default this one.
set -eu
cd "${1:-$(dirname "$0")/..}"
sources=$(ls crates/*/src/*.rt)
places() {
    local found
    # shellcheck disable=SC2086
    found=$(grep -nE "$2" $sources || true)
    echo "== $1: $(grep -c . <<< "$found")"
    echo "$found"
}
places '1: an Option or a Result taken apart and put together again; an error made by hand' '^\s*(None => (None|Err\()|Err\(_\) => Err\()|return Err\(AllocError\)'
places '1: numbers for kinds or refusals' 'fn \w+\(.*-> (Option<)?u8>?( \{)?$'
places '1: own enums' '^(pub )?enum '
places '2: functions, types and impls, to be read for twins' '^ *(pub |pub\(crate\) )?fn |^(pub )?(struct|enum|trait) |^impl'
places '3: loops' '^ *(for .* in .*|while .*|loop) \{$'
places '3: an index counted beside what it stands for' 'enumerate\(\)|\bin [0-9]+\.\.|\[(place|account|k|i)\]'
places '4: what derives would write, and derives' 'impl.* (Clone|Copy|PartialEq|Eq|PartialOrd|Ord|Hash|Debug|Display|From<.*>|TryFrom<.*>|FromStr) for|#\[derive'
places '4: conversions and printing by hand' 'fn (words|usage|write\w*|read|figure|dated|named|lot_of|chosen|number|next_\w+)\b| as (u32|usize|u64|u8|char)\b'
places '6: lengths, and arrays by one index' '\.len\(\)|: \[u32; 16\]|&mut \[u32; 16\]|Vec<'
places '7: a switch on which step to run' 'match (\*?self|verb|command|market|drawing)\b|dyn |: fn\('
echo "== 5: what a clause says in two or more contracts, and how often"
# shellcheck disable=SC2086
grep -hE '^\s*(requires|ensures)' $sources | sed -E 's/^\s*(requires|ensures) *[a-z_]* *\{ *//; s/ *\}.*$//' | sort | uniq -c | sort -rn | awk '$1 > 1'
echo "== 5: parameters, and how often"
# shellcheck disable=SC2086
grep -hE '^ *(pub )?fn ' $sources | grep -oE '\w+: &?(mut )?[A-Za-z[][^,)]*' | sort | uniq -c | sort -rn | awk '$1 > 2'
echo "== 8: answers, and lemmas and definitions of proofs/ and specs/"
find crates -path '*/proofs/*' -name Answers.antt -not -path '*/out/*' -exec cat {} + | grep -cE '^pub [^ ]+ : goal'
cat crates/*/proofs/*.antt crates/*/specs/*.antt | grep -cE '^ *(pub )?[A-Za-z_0-9-]+ : '
