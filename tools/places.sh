#!/bin/bash
# Lists the places that docs/DESIGN-PASS.md counts, one to a line: tools/places.sh POINT [COMMIT]
# POINT is 1 to 8. With COMMIT the places are those of that commit, else those of the working tree.
set -euo pipefail
cd "$(dirname "$0")/.."
point=$1
root=.
if [ $# -gt 1 ]; then
    root=$(mktemp -d)
    trap 'rm -rf "$root"' EXIT
    git archive "$2" crates | tar -x -C "$root"
fi
cd "$root"
mapfile -t sources < <(find crates/*/src -name '*.rt' | sort)
mapfile -t proofs < <(find crates/*/proofs -name '*.antt' | sort)

# Lines of code that match, without comments, clauses and imports.
code() {
    grep -nE "$1" "${sources[@]}" | grep -vE ':[0-9]+: *(//|ghost use|use |requires|ensures)' || true
}

case $point in
1)
    # numbers for kinds and codes; numbers for refusals; flags in structs; whether it worked, as a bool
    code 'const [A-Z_]+: u8 = [0-9]+;' | grep -v 'MAX_\|LEN'
    code 'number: [0-9]|refusal(_at)?\([0-9]|=> \([0-9]+, |^ +ComposeFault::[A-Za-z]+ => [0-9]'
    code '^ +(pub )?[a-z]+: bool,'
    code 'fn [a-z_<>A-Z:,'"' "']*\((.*&mut )?.*&mut .*-> bool'
    code 'fn [a-z_]+_words\(number'
    ;;
2)
    # functions of one name in two places, but the methods of traits
    grep -nohE '^(pub(\(crate\))? )?fn [a-z_]+|^    pub(\(crate\))? fn [a-z_]+' "${sources[@]}" |
        sed -E 's/.*fn //' | sort | uniq -d |
        grep -vxE 'new|main|run' |
        while read -r name; do code "fn $name\b"; done
    # functions of one crate whose names differ in one word, and types round one value that only print it
    code 'fn (of_records|of_marks|of_outgoing|add|arrive|place_order|rings|stock|ring_words|stock_words|of_request|of_certificate|show_request|show_certificate|request|certificate|big_sigma[01]|small_sigma[01])\b'
    code 'pub struct (Dotted|Words|ReadWords|Asked|Stop|Tally)\b|pub enum Asked'
    # one question or change of books for each kind of row, and each make
    code 'fn (put|remove)_(record|mark|outgoing)\('
    ;;
3)
    code 'for _?[a-z]+ in [0-9a-z_(]+\.\.|while |for \(.*enumerate|for _ in '
    code 'let mut (at|place|depth|number|sum|count|least|len|n|best|difference|there|seals)\b'
    code '^ +return (true|false|Some\([a-z]+(\.[a-z]+)?\)|Some\(i\));'
    ;;
4)
    code 'impl (PartialEq|PartialOrd|Ord) '
    code '[a-z]\.0 (==|!=|<|>|<=|>=) |\.bytes (==|!=) '
    code 'fn (order_[a-z]+|refusal|to_bytes)\('
    code ' as (u8|u16|u32|u64|usize|i64)\b'
    code 'pub struct [A-Za-z]+(<.a>)?\(pub '
    code 'fn (key_in|height_in|value_in|digest_in|number_in|two_bytes_in|value_bytes)\('
    ;;
5)
    # facts that stand in three or more clauses
    grep -ohE '(requires|ensures)[^{]*\{.*\}$' "${sources[@]}" | sed -E 's/^[^{]*//' |
        sort | uniq -c | sort -rn | awk '$1 >= 3'
    # parameters that travel together
    code '(draft: &mut Draft|buffer: &mut \[u8\], at: usize|block: Part,|bytes: &\[u8\], (key|side|chain))'
    ;;
6)
    code '^ +(pub )?[a-z]+: (\[[A-Za-z0-9_]+; [A-Z_]+\]|&.a mut \[[A-Za-z0-9_]+\]|&.a \[[A-Za-z0-9_]+\]),'
    code '^ +(pub )?(len|count|depth|changed|sends|width|first): (u8|u16|usize),'
    ;;
7)
    code 'if .*first_is_even\(\)|match \(?(scheme|kind)'
    ;;
8)
    # the proofs, by crate: answers and invariants, lemmas, lines
    for crate in $(printf '%s\n' "${proofs[@]}" | cut -d/ -f2 | sort -u); do
        mine=$(printf '%s\n' "${proofs[@]}" | grep "^crates/$crate/")
        goals=$(cat $mine | grep -cE '^(abbrev )?pub [^ ]+ : goal\.' || true)
        lemmas=$(cat $mine | grep -cE '^(abbrev |unfoldable )?pub [^ ]+ :' || true)
        echo "$crate: $goals answers and invariants, $((lemmas - goals)) lemmas, $(cat $mine | wc -l) lines"
    done
    ;;
*)
    echo "a point is 1 to 8" >&2
    exit 2
    ;;
esac
