#!/bin/sh
# Lists places of eight kinds in the sources of a commit (default: HEAD), as docs/DESIGN-PASS.md counts them: tools/places.sh [COMMIT]
commit=${1:-HEAD}

places() {
    found=$(git grep -nE "$2" "$commit" -- 'crates/*/src/*.rt' | sed "s/^$commit://")
    printf '== %s: %s\n%s\n' "$1" "$(printf '%s' "$found" | grep -c .)" "$found"
}

places '1 own Option or Result, flags with a value, numbers for kinds' \
    '^(pub )?enum |fn number\(|[^a-z_]1[67]u8|let mut (given|timed) = false|-> \(bool, |^    (before|after): Option<'
places '2 functions of one shape' \
    'fn (fill_puts|fill_drops|has_route|has_prefix|meet|union|shl|shr|next|asked|table|example|route|put|crowded|scattered)[(<]'
places '3 loops that count by hand' \
    'while |loop \{|for [a-z_]+ in .*[0-9A-Za-z)]\.\.|(n|changed|fresh) \+= 1;|\[[a-z]*\[0\]|set\[0\]|\.enumerate\(\)'
places '4 comparing, converting and printing by hand' \
    'fn compare|Ordering::(Less|Equal|Greater)|fn number\(|fn (octet|address|show)\(|to_be_bytes|"refused'
places '5 parameters that travel together, facts repeated' \
    'old: &Table,|networks: &\[u32\], routes|bits: u8, hop|from: u8, hop|place: u8, hop|requires indexed|requires ordered|requires \{ n ≤ 32 \}'
places '6 lengths beside buffers, parallel arrays, arenas' \
    'count: usize|networks: Vec<|routes: Vec<|: \[Option<|needs: (&mut |&)Vec<|given: &mut Vec<|\(2 \* i'
places '7 switches on steps, tables of functions' \
    'impl Fn|dyn |: fn\(|fn\(&'
printf '== 8 answer files: %s, with %s lines; lemma files: %s, with %s lines\n' \
    "$(git ls-tree -r --name-only "$commit" | grep -c '/proofs/.*/\(Answers\|Invariants\)\.antt$')" \
    "$(git ls-tree -r --name-only "$commit" | grep '/proofs/.*/\(Answers\|Invariants\)\.antt$' | while read -r f; do git show "$commit:$f"; done | wc -l)" \
    "$(git ls-tree -r --name-only "$commit" | grep -c '/proofs/[^/]*\.antt$')" \
    "$(git ls-tree -r --name-only "$commit" | grep '/proofs/[^/]*\.antt$' | while read -r f; do git show "$commit:$f"; done | wc -l)"
