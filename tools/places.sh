#!/bin/sh
# Lists the places in src/ that the points of docs/DESIGN-PASS.md ask about, point by point; each line is then judged by hand.
cd "$(dirname "$0")/.." || exit 1
list() {
    printf '== %s: ' "$1"
    shift
    found=$(grep -rnE "$@" crates/*/src)
    printf '%s\n' "$found" | grep -c .
    printf '%s\n' "$found"
}
list '1a enums' '^(pub(\(crate\))? )?enum '
list '1b refusals told by None' 'Ok\(None\)|return None|_ => None|None => true|else \{ None'
list '1c flags' '(-> bool|: bool\b|Option<u64>, Fault|let mut named)'
list '1d numbers for kinds and refusals' '(kind|code)(\([a-z: ,&0-9]*\))? ?(:|->) ?u8|fn (from_)?code'
list '3a counted loops' 'for [a-z_]+ in [0-9]+\.\.'
list '3b other loops' 'for [a-z_, ()&]+ in [^0-9]|^ *(while|loop)\b'
list '3c indices written out' '\[at|\[a-z\]+ [+*] [0-9]|\[[a-z]+, [a-z]+, [a-z]+|word_at\(from'
list '4a comparing and converting by hand' 'fn (same|shares_slot|code|from_code|name|named|settle|number|digit|letter|from_word|to_word|text_of|read_[a-z_]+|show_[a-z_]+)\b'
list '4b casts' ' as (u8|u16|u32|u64|usize|char)\b'
list '4c derives' '#\[derive'
list '5a six numbers copied' '^ *kind(: [a-z_0-9*.]+)?,'
list '5b words seen as bytes' 'map \(λ w\. w\.now\)'
list '5c memory and count together' '(table|bytes): &(.a )?mut \['
list '6 buffers with a length beside them' 'count: (&mut )?usize|\[0; [A-Z0-9]+\]'
list '7 switches' 'match (verb|command|look|self|stage|form|&mut self)\b'
printf '== 8 proof files: %s\n' "$(find crates -path '*proofs*' -name '*.antt' -not -path '*/out/*' | wc -l)"
find crates -path '*proofs*' -name '*.antt' -not -path '*/out/*' -exec cat {} + | wc -l
# `duplicates` reads no .rt, so the sources go by another ending into a folder of their own
twins=$(mktemp -d)
for file in crates/*/src/*.rt; do
    cp "$file" "$twins/$(printf '%s' "$file" | sed 's|crates/||; s|/src/|-|; s|\.rt$|.rs|')"
done
printf '== 2 twins\n'
duplicates --repo "$twins" --min-lines 4 --most 60
rm -r "$twins"
