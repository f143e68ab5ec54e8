#!/bin/sh
# Lists, point by point of docs/DESIGN-PASS.md, the lines of src/ at which to look. Run it at the top of a checkout.
say() { printf '\n== %s\n' "$1"; }

say '1 enums; flags; numbers for kinds or refusals; pairs without names'
grep -rnE '^\s*(pub )?enum |^\s+(pub )?[a-z_]+: bool,' crates/*/src
grep -rnE 'fn new\(.*\) -> Option|fn number\(|\(Call, u8\)|Result<\([^)]|Option<\(|: \(u16, u16\)' crates/*/src

say '2 clauses that stand at two functions or more'
grep -rhE '^\s*ensures' crates/*/src | sed -E 's/^ *//; s/ensures [a-z_]+ \{/ensures {/' | sort | uniq -dc | sort -rn

say '3 loops over a range, and loops with a test of their own'
grep -rnE '^\s*(for .* in .*\.\.|while |loop )' crates/*/src

say '4 impls by hand; matches on Option or Result; comparisons and conversions by hand'
grep -rnE '^impl.* (From<.*|TryFrom<.*|PartialEq|Eq|PartialOrd|Ord|Clone|Default|(fmt::)?Display) for ' crates/*/src
grep -rnE '^\s+(None|Some\(.*\)|Ok\(.*\)|Err\(.*\)) =>' crates/*/src
grep -rnE '^\s+\(Some\(.*\), Some\(.*\)\) =>|^\s+Ordering::.* =>| == .*\.(period|offset) && ' crates/*/src

say '5 demands that stand at two functions or more; lists of parameters that come three times or more'
grep -rhE '^\s*requires' crates/*/src | sed -E 's/^ *//; s/requires [a-z_]+ \{/requires {/' | sort | uniq -dc | sort -rn
find crates/*/src -name '*.rt' -exec cat {} + | tr -s ' \n' ' ' | grep -oE 'fn [a-z_]+(<[^(]*>)?\([^)]*\)' | sed -E 's/^[^(]*//' | sort | uniq -c | awk '$1 > 2' | sort -rn

say '6 arrays and lent slices that are written'
grep -rnE '^\s+(pub )?[a-z_]+: (&.* )?\[[^]]*(\[[^]]*\])?; ?[0-9]+\],|: &(mut) \[' crates/*/src

say '7 closures in boxes, function pointers, dyn, tests of a code'
grep -rnE 'Box<dyn|&dyn|: fn\(|match code|match kind' crates/*/src

say '8 proofs: files of answers and their lines, and all lines of proofs/'
find crates/*/proofs -name Answers.antt | wc -l
find crates/*/proofs -name Answers.antt -exec cat {} + | wc -l
find crates/*/proofs -name '*.antt' -exec cat {} + | wc -l
