#!/usr/bin/env bash
# Fuzzes the five proved calls against the original, with the original's code instrumented for coverage.
#   run.sh SECONDS    fuzz for so long, from the kept corpus and from generated cases, into host/target/fuzz/found
#   run.sh keep       add to the kept corpus what reaches more of the original's code than it does, in few and short inputs
#   run.sh replay F   run one input
# With BUILD=terminal in the environment it is the signing terminal's archive, in host/target/fuzz-terminal.
# Needs clang with libFuzzer (Debian: clang and libclang-rt-dev). Exit status 0 where no input was found on which the two differ;
# else both answers are shown and the input is left in host/target/fuzz as crash-...
set -euo pipefail
usage() {
    sed -n '2,8s/^# \{0,1\}//p' "${BASH_SOURCE[0]}"
    exit 2
}
case ${1-} in
keep | replay) ;;
'' | *[!0-9]*) usage ;;
esac
work=target/fuzz
feature=()
case ${BUILD-desk} in
desk) ;;
terminal) work=target/fuzz-terminal feature=(--features terminal) ;;
*) usage ;;
esac
file=
[ "$1" != replay ] || file=$(realpath "${2?which input}")
cd "$(dirname "${BASH_SOURCE[0]}")/.."
triple=x86_64-unknown-linux-gnu
flags="-C passes=sancov-module -C codegen-units=1 -C debuginfo=1"
for pass in level=4 inline-8bit-counters pc-table trace-compares; do
    flags+=" -C llvm-args=-sanitizer-coverage-$pass"
done
# With --target the flags are for the target's code alone, not for build scripts.
RUSTFLAGS=$flags cargo rustc --release --offline -p fuzz --lib --crate-type staticlib --target "$triple" --target-dir "$work" "${feature[@]}"
clang++ -fsanitize=fuzzer "$work/$triple/release/libfuzz.a" -lpthread -ldl -lm -o "$work/fuzz"
mkdir -p "$work/found" "$work/seeds"
cargo run -q --release --offline -p fuzz --bin seeds -- "$work/seeds"
options=(-max_len=4096 -timeout=20 -print_final_stats=1 -artifact_prefix="$work/" -dict=fuzz/quanta.dict)
case $1 in
keep)
    FUZZ_CODE_ONLY=1 "$work/fuzz" "${options[@]}" -max_len=300 -use_counters=0 -merge=1 fuzz/corpus "$work/seeds" "$work/found"
    ;;
replay) "$work/fuzz" "$file" ;;
*) "$work/fuzz" "${options[@]}" -max_total_time="$1" "$work/found" fuzz/corpus "$work/seeds" ;;
esac
