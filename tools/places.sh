#!/bin/sh
# Lists the places that docs/DESIGN-PASS.md counts, point by point, as they stand in a commit (or, with no argument, in HEAD):
#     sh tools/places.sh [COMMIT] [POINT]
# A line is a place to look at, and not yet a fault: the page says of each what became of it.
commit=${1:-HEAD}
point=${2:-all}

find_in() { git grep -nE "$1" "$commit" -- "$2" | sed "s/^$commit://"; }

wanted() { [ "$point" = all ] || [ "$point" = "$1" ]; }

# The lines of a pattern under a heading with their number.
show() {
    title=$1
    shift
    lines=$(cat)
    printf '%s: %s\n' "$title" "$(printf '%s' "$lines" | grep -c '')"
    if [ "$point" != all ] && [ -n "$lines" ]; then printf '%s\n' "$lines" | sed 's/^/    /'; fi
}

rt='crates/*/src/*.rt'

if wanted 1; then
    find_in '^(pub(\([a-z]+\))? )?enum ' "$rt" | show '1 own enums'
    find_in '\(bool, |, bool\)' "$rt" | show '1 a flag with a value beside it'
    find_in '\(u8, usize\)|\(9, 9, 9\)|=> 9,|return 9|100(_000)? \+ |unwrap_or\((0|255)\)|Err\(_\) => (0|None|false)|\(0, 0\)[,)]' "$rt" \
        | show '1 numbers for kinds or refusals'
fi
if wanted 2; then
    git grep -hoE '\bfn [a-z_]+' "$commit" -- "$rt" | sort | uniq -d | show '2 names of functions that stand more than once'
fi
if wanted 3; then
    find_in 'for [a-z][a-z_]* in .*\.\.|while ' "$rt" | show '3 loops that count'
    find_in 'for _ in [^ ]*\.\.' "$rt" | show '3 loops that go round so many times'
fi
if wanted 4; then
    find_in '\bfn (same|none|empty|from|fmt|eq|ne|cmp|partial_cmp|clone|default|try_from)\b' "$rt" \
        | show '4 equality, order, copying, conversion, printing'
    find_in '\bas u8\b' "$rt" | show '4 kinds turned into numbers'
fi
if wanted 5; then
    git grep -hE '^ +requires ' "$commit" -- "$rt" | sed 's/^ *requires [a-z_]* *//' | sort | uniq -c | awk '$1 > 2' \
        | show '5 facts that three or more contracts require'
    git grep -hoE '^ +(pub(\(crate\))? )?[a-z_]+: [^,]*,$' "$commit" -- "$rt" | sed 's/^ *//' | sort | uniq -c | sort -rn | awk '$1 > 4' \
        | show '5 parameters and fields that stand five times or more'
fi
if wanted 6; then
    find_in '^    (pub )?[a-z_]+: (\[.*; [A-Z0-9]+\]|Vec<.*>),$' "$rt" | show '6 arrays and vectors in types'
    find_in '^    (pub )?(len|size|count): usize,$' "$rt" | show '6 lengths in types'
fi
if wanted 7; then
    find_in '\b(mode|way|end|marking|pairing|joint|course|stage): (Mode|Way|End|Marking|Pairing|Joint|Course|Stage)\b' "$rt" \
        | show '7 a kind handed on, to choose the step by'
    find_in '\b(impl Fn|: Fn|dyn )' "$rt" | show '7 closures as parameters'
fi
if wanted 8; then
    git grep -hE '^pub [^ ]+ : goal\.' "$commit" -- 'crates/*/proofs/*Answers.antt' | show '8 written answers'
    git grep -hc '' "$commit" -- 'crates/*/proofs/*.antt' | awk -F: '{ n += $NF } END { print "lines of proofs:", n }'
fi
