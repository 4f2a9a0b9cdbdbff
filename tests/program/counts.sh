#!/bin/sh
# Makes crates/counts/stdout by the second program.
set -e
cd "$(dirname "$0")"
cargo build --release --offline --quiet -j1 --manifest-path ../second/Cargo.toml
second=../second/target/release/second

# the number that tables with so much room are answered
number() { $second analyse "$@" | head -n 1 | awk '{ print $1 == "refused" ? $2 : 0 }'; }

sed -n 's/^    show([^"]*"\([^"]*\)", \([a-z]*\))[?;]*$/\1 \2/p' ../../crates/counts/src/main.rt | while read -r name listed; do
    file=../../crates/counts/data/$name
    counts=$($second counts "$file")
    nodes=$(echo "$counts" | sed -n 's/^nodes //p')
    cut_nodes=$(echo "$counts" | sed -n 's/^cut nodes //p')
    cuts=$(echo "$counts" | sed -n 's/^cuts //p')
    printf '%s: nodes %s, cut nodes %s' "$name" "$nodes" "$cut_nodes"
    [ "$listed" = false ] || printf ', cuts %s' "$cuts"
    printf ', %s; just enough: %s' "$(echo "$counts" | grep '^top ')" "$(number "$file" "$nodes" "$cut_nodes")"
    printf ', a node less: %s' "$(number "$file" $((nodes - 1)) "$cut_nodes")"
    printf ', a cut node less: %s\n' "$(number "$file" "$nodes" $((cut_nodes - 1)))"
done >../../crates/counts/stdout
