#!/bin/bash
# Counts the places of src/ that docs/DESIGN-PASS.md speaks of: tools/places.sh COMMIT, or tools/places.sh alone for the tree.
at=$1
g() { if [ -n "$at" ]; then git grep -hE "$1" "$at" -- 'crates/*/src/*.rt'; else git grep -hE "$1" -- 'crates/*/src/*.rt'; fi | wc -l; }
lines() { if [ -n "$at" ]; then git grep -h '' "$at" -- "$1"; else git grep -h '' -- "$1"; fi | wc -l; }
files() { if [ -n "$at" ]; then git ls-tree -r --name-only "$at"; else git ls-files; fi | grep -cE "$1"; }
echo "1 an Option that is a refusal: $(g 'Option<(Refusal|Field|OutputList)>')"
echo "1 let-else on Ok, Some, Err: $(g 'let (Ok|Some|Err)\(.*else')"
echo "1 arms that pass a refusal, an Ok or a None on: $(g '^ *(Err\(refusal\) =>|Some\(refusal\) =>|Ok\(\(\)\) =>|Ok\(answer\) =>|None => (None|Ok)|Some\(.*\) => (Some|Err)\()')"
echo "1 if let Some or Err, if is_err: $(g 'if let (Some|Err)\(|is_err\(\) \{')"
echo "1 a number that stands for a refusal: $(g 'REST')"
echo "1 error types that are no Error: $(( $(g '^(pub )?enum (Refusal|Fault|Full|Refused)') - $(g 'impl Error for') ))"
echo "3 loops over a range: $(g '^ *for [a-z_]+ in .*\.\.')"
echo "3 all loops: $(g '^ *(for|while|loop) ')"
echo "4 functions that compare by hand: $(g 'fn (is_same|alike|check_same|check_answer)\(')"
echo "4 matches!: $(g 'matches!')"
echo "4 types with Clone and Copy alone: $(g 'derive\(Clone, Copy\)\]')"
echo "4 impls of From and Display: $(g 'impl.* (From<|fmt::Display for|Display for)')"
echo "5 requires that a count fits its list: $(g 'requires .*\{ (used|count|written) ≤ length')"
echo "5 parameters store, aboard, out: $(g '^ *(other_)?(store|aboard|out): &mut')"
echo "6 fields that count another field's places: $(g '^ *(pub\(crate\) )?(used|tickets|count): usize,')"
echo "7 function pointers and dyn: $(g 'dyn |: fn\(|\[fn\(')"
echo "8 lines of proofs: $(lines 'crates/*/proofs/*.antt')"
echo "8 files of proofs: $(files '^crates/[^/]*/proofs/.*\.antt$')"
echo "  lines of src: $(lines 'crates/*/src/*.rt')"
