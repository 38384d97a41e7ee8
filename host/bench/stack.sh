#!/usr/bin/env bash
# The stack of one program call at the deepest nesting: both archives beside the original.
#   bash host/bench/stack.sh
# A figure is in bytes: by valgrind's massif the peak of a whole program's stack, and in brackets what the call alone wrote to,
# on a stack of its own. The archives are called by a C program (host/quanta/tests/c/stack.c), the original by `oracle`.
# Needs cargo, cc, valgrind and what makes the archives; half a minute once they are made.
set -euo pipefail
cd "$(dirname "${BASH_SOURCE[0]}")/../.."
work=host/target/stack
mkdir -p "$work"
cargo build -q --release --offline --manifest-path host/Cargo.toml -p oracle
[ -f target/staticlib/libquanta.a ] || bash tools/staticlib quanta
[ -f target/staticlib/libquanta_terminal.a ] || bash tools/terminal
for build in quanta quanta_terminal; do
    cc -std=c11 -D_XOPEN_SOURCE=700 -O1 -static -I include host/quanta/tests/c/stack.c "target/staticlib/lib$build.a" -o "$work/$build"
    "$work/$build" >"$work/$build.alone"
done

# peak PROGRAM ARGS: massif's peak of the stack.
peak() {
    valgrind --tool=massif --stacks=yes --massif-out-file="$work/massif" "$@" >"$work/said" 2>&1 || true
    awk -F= '/^mem_stacks_B/ && $2 + 0 > most { most = $2 + 0 } END { print most }' "$work/massif"
}
# both BUILD NAME: massif's peak, and what the call alone wrote to.
both() {
    echo "$(peak "$work/$1" "$2") ($(awk -v name="$2" '$1 == name { print $3 }' "$work/$1.alone"))"
}
printf '%-34s %6s %18s %18s %9s\n' program answer desk terminal original
printf '%-34s %6s %18s %18s\n' 'none: no call' - "$(peak "$work/quanta" none)" "$(peak "$work/quanta_terminal" none)"
while read -r name answer _; do
    "$work/quanta" "$name" source >"$work/source.quanta"
    original=-
    [[ $name == table* || $name == *two-closers || $name == *edition-2 ]] || original=$(peak host/target/release/oracle "$work/source.quanta")
    printf '%-34s %6s %18s %18s %9s\n' "$name" "$answer" "$(both quanta "$name")" "$(both quanta_terminal "$name")" "$original"
done <"$work/quanta.alone"
