#!/usr/bin/env bash
# The whole comparison of the proved lexer with the original, as far as the tokens: some 17 million cases, five minutes or more.
# Prints each command with its count; exit status 1 where any case disagrees.
set -uo pipefail
cd "$(dirname "${BASH_SOURCE[0]}")/.." || exit 2
cargo build --release --offline -p compare || exit 2
status=0
run() {
    printf '%s\n' "compare lexical proved-lexer $(printf '%q ' "$@")"
    target/release/compare lexical proved-lexer "$@" 2>/dev/null || status=1
}
run --kind scalars
run --exhaustive 5
run --exhaustive 6 --alphabet $'"@01-\r\n/_a\u200b'
run --exhaustive 13 --alphabet '1-@'
run --exhaustive 7 --alphabet '=<>&|+-!/'
for kind in grammar depth damage tables room bytes words blocks; do
    run --kind "$kind" --seed 77 --count 100000
done
run --seed 20260101 --count 1000000
run --kind limits --seed 5 --count 1000
exit "$status"
