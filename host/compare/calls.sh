#!/usr/bin/env bash
# The whole comparison of the five proved calls, in both editions, with the original and what is made of its answers:
# answers and every word of both buffers, which hold rubbish before each call. Some 40 million cases, ten minutes or more.
#   calls.sh             through the desk's archive
#   calls.sh terminal    through the signing terminal's
# Prints each command with its count and how far it is; the last line is 'N cases, D disagreements'. Exit status 1 where any disagree.
set -uo pipefail
case ${1-} in
'') folder=target options=() ;;
terminal) folder=target/terminal options=(--features terminal) ;;
*)
    sed -n '2,6s/^# \{0,1\}//p' "${BASH_SOURCE[0]}" >&2
    exit 2
    ;;
esac
cd "$(dirname "${BASH_SOURCE[0]}")/.." || exit 2
cargo build --release --offline -p compare --target-dir "$folder" "${options[@]}" || exit 2
cases=0
disagreements=0
run() {
    local said
    printf '%s\n' "compare oracle proved $*"
    said=$("$folder/release/compare" oracle proved "$@")
    [ $? -le 1 ] || exit 2
    printf '%s\n' "$said"
    [[ ${said##*$'\n'} =~ ^([0-9]+)\ cases,\ ([0-9]+)\ disagreements$ ]] || exit 2
    ((cases += BASH_REMATCH[1], disagreements += BASH_REMATCH[2]))
}
run --kind edges
run --kind nesting
run --kind edits
run --kind tokens --most 1000000
for call in program item stmt expr type; do
    run --exhaustive 4 --call "$call"
done
for kind in grammar depth damage tables room bytes words blocks; do
    run --kind "$kind" --seed 78 --count 100000
done
run --kind limits --seed 6 --count 1000
run --seed 20260202 --count 2000000
# Where the editions differ, in both.
for edition in 1 2; do
    run --edition "$edition" --kind closers --most 1000000
    run --edition "$edition" --kind days
done
run --kind editions --seed 20260606 --count 1000000
# What was read in edition 1, in edition 2.
run --edition 2 --kind edges
run --edition 2 --kind nesting
run --edition 2 --kind edits
run --edition 2 --kind tokens --most 100000
for call in program item stmt expr type; do
    run --edition 2 --exhaustive 4 --call "$call"
done
for kind in grammar depth damage tables room bytes words blocks; do
    run --edition 2 --kind "$kind" --seed 79 --count 100000
done
run --edition 2 --kind limits --seed 7 --count 300
run --edition 2 --seed 20260707 --count 1000000
# Editions that there are not.
for edition in 0 3 256 4294967295; do
    run --edition "$edition" --kind edges
    run --edition "$edition" --seed 8 --count 20000
done
echo "$cases cases, $disagreements disagreements"
[ "$disagreements" -eq 0 ]
