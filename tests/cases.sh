#!/usr/bin/env bash
# The case files and the answers stored beside the case-running programs are, byte for byte, what the second program makes.
set -eu
cd "$(dirname "$0")/.."
room=$(mktemp -d)
trap 'rm -rf "$room"' EXIT
for program in crates/*_cases; do
    name=$(basename "$program" _cases)
    python3 -m second.cases "$name" "$room/stdin" "$room/stdout"
    cmp "$room/stdin" "$program/stdin"
    cmp "$room/stdout" "$program/stdout"
    echo "$name: $(wc -l <"$program/stdout") cases, as the second program makes them"
done
