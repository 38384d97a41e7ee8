#!/usr/bin/env bash
# Instructions of the five calls through both archives side by side: the desk's ring of calls, the terminal's stack of openings.
#   bash host/bench/engines.sh
# Runs `bench callgrind calls` of both builds beside each other, two to ten minutes on two cores; both whole outputs stay in
# host/target/engines. Needs valgrind and what the builds need.
set -euo pipefail
cd "$(dirname "${BASH_SOURCE[0]}")/.."
out=target/engines
mkdir -p "$out"
cargo build -q --release --offline -p bench
cargo build -q --release --offline -p bench --features terminal --target-dir target/terminal
echo "counting, two to ten minutes" >&2
target/release/bench callgrind calls >"$out/desk" &
desk=$!
target/terminal/release/bench callgrind calls >"$out/terminal"
wait "$desk"
# A row of both is: text original full factor tight factor. Headings have words in the second place.
paste -d ' ' "$out/desk" "$out/terminal" | awk '
    NF == 12 && $2 ~ /^[0-9.]+$/ { printf "%-10s %9.2f %9.2f %9.2f %6.2f\n", $1, $2, $5, $11, $11 / $5; next }
    /^text/ { print "text        original      desk  terminal factor"; next }
    /^instructions/ { print "instructions per byte (callgrind), tight; a factor is terminal over desk"; next }
    { print substr($0, 1, length($0) / 2) }'
