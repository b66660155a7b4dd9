#!/usr/bin/env bash
# Lists the places that docs/DESIGN-PASS.md counts, point by point: tools/places.sh [POINT]
cd "$(dirname "$0")/.." || exit 1
src() { git ls-files 'crates/*/src/*.rt' | xargs grep -nHE "$@"; }
p1() { src '^\s*(pub |pub\(crate\) )?enum |-> (bool|\(.*\b(bool|usize)\b.*\))|\b0 where\b|2\^64 - 1 where|none has|None => None|Err\(_\) => None|let mut some = false'; }
p2() { src -o '^\s*(pub |pub\(crate\) )?fn [a-z_]+' | sed -E 's/.*fn //' | sort | uniq -c | awk '$1 > 1'; src 'const BLANK|< 1 \|\||fn smallest|fn [a-z]+_length|fn find|fn key_bytes'; }
p3() { src '\bwhile\b|\bfor [a-z_]+ in [^{]*\.\.|\.enumerate\(\)|[a-z] \+= 1;|saturating_add\(1\)'; }
p4() { src '\.same\(|== [a-z.]+ && [a-z.]+ ==|\bas (u8|u16|u32|u64|usize)\b|derive\(Clone, Copy\)|derive\(Clone, Copy, PartialEq, Eq\)|fn (number|words|title|named|same)\b|refusal\.(number|words)|\.words\(\)'; }
p5() { src '^\s*(requires|ensures)' | sed -E 's/^[^:]*:[0-9]*:\s*//; s/^(requires|ensures) [a-z_]+ /\1 /' | sort | uniq -c | sort -rn | awk '$1 > 2'; src -o '\b(rt: &HostRuntime, )?[a-z]+: [^,()]+, [a-z]+: [^,()]+' | sed -E 's/^[^:]*:[0-9]*://' | sort | uniq -c | sort -rn | awk '$1 > 2'; }
p6() { src '\[[A-Z][A-Za-z]*; [A-Z_]+\]|^\s*(len|count|places|previous): usize,|Vec<|fn find'; }
p7() { src 'match self\.kind|match kind|\bdyn\b|\bFn(Mut|Once)?\(|fn\('; }
p8() { git ls-files 'crates/*/proofs/*Answers.antt' | xargs grep -cE '^pub ' | awk -F: '{n += $2} END {print n " answers in " NR " files"}'; git ls-files 'crates/*/proofs/*.antt' | grep -vE '(Answers|Invariants|Lib).antt' | xargs grep -cE '^ *(pub )?[a-z_0-9-]+ :' | awk -F: '{n += $2} END {print n " lemmas in " NR " files"}'; }
for p in ${1:-1 2 3 4 5 6 7 8}; do echo "== $p"; "p$p"; done
