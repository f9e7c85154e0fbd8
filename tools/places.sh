#!/bin/sh
# Lists, by form, the places in the code that a reading of its forms begins with: `sh tools/places.sh [COMMIT]`.
# Without a commit it reads the files as they stand. Each line is a hit of a pattern and not yet a judgement.
cd "$(git rev-parse --show-toplevel)" || exit 1
at="$1"
src='crates/*/src/*.rt'

hits() {
    found=$(git grep -nE "$2" $at -- "$src" | sed -E "s/^$at://; s/^crates\///")
    printf '== %s: %s\n' "$1" "$(printf '%s' "$found" | grep -c '')"
    [ -n "$found" ] && printf '%s\n' "$found"
}

hits '1 a bare number as an error' 'Result<.*, *[iu](8|16|32|64|size)>'
hits '1 a result in a result' '(Result|Option)<(Result|Option)<'
hits '1 an enum' '^ *(pub(\(crate\))? )?enum '
hits '1 a number for a kind' '^ +(pub )?(kind|number|layer|field): u(8|32|size)|field: usize|match (degree|field)|field ==|\[u8\]|[0-9] \* PAYLOADS|PAYLOADS [!=]='
hits '1 perhaps, or a flag, in a struct' '^    [a-z_]+: (Option<|bool)'
printf '== 2 names of functions that stand more than once\n'
git grep -hoE '\bfn [a-z_0-9]+' $at -- "$src" | sort | uniq -c | sort -rn | awk '$1 > 1'
hits '3 a loop over numbers, a count, an index' '\bfor [^<]* in [^{]*\.\.|\bwhile\b|\bloop \{|[+-]= 1;|\.enumerate\(\)'
hits '3 any loop' '^ *for [^<]* in '
hits '4 an impl of conversion, comparison or printing' '^ *impl.*(Display|From|FromStr|PartialEq|Eq|Ord|Clone|Default)\b.* for '
hits '4 a conversion by a name of its own' 'pub fn (new|get|read|payload|tenths|[a-z]+_payload|from_[a-z]+|[a-z]+_number)\('
hits '4 a conversion by as' ' as [iu](8|16|32|64|size)\b'
hits '5 a demand' '^ *requires'
hits '6 an array, a part of one, a Vec in a struct' '\[[A-Za-z0-9_]+; [A-Z0-9a-z]+\]|\[0\.\.|^    (pub )?[a-z_]+: Vec<'
hits '7 a switch on a parameter, a closure, a table' 'match (\*?field|(self\.)?quorum)|\bfn\(|\bdyn |impl Fn|: Fn'
printf '== 8 proofs: crate, files of answers, lines of proofs\n'
if [ -n "$at" ]; then
    for c in $(git ls-tree -d --name-only "$at" crates/); do
        files=$(git ls-tree -r --name-only "$at" "$c/proofs" | grep '\.antt$')
        [ -n "$files" ] && printf '%s %s %s\n' "${c#crates/}" "$(echo "$files" | grep -c Answers.antt)" "$(for f in $files; do git show "$at:$f"; done | wc -l)"
    done
else
    for c in crates/*; do
        [ -d "$c/proofs" ] && printf '%s %s %s\n' "${c#crates/}" "$(git ls-files "$c/proofs" | grep -c Answers.antt)" "$(git ls-files "$c/proofs" | grep '\.antt$' | xargs cat | wc -l)"
    done
fi
