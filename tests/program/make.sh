#!/bin/sh
# Makes outputs/ by the second program: what the program must write for each line of `inputs`, and first for the tree of 2^63 cuts.
set -e
cd "$(dirname "$0")"
cargo build --release --offline --quiet -j1 --manifest-path ../second/Cargo.toml
second=../second/target/release/second
rm -rf outputs
mkdir outputs
for name in $({ cat inputs; ./longest; } | sed -n 's/^\([a-z0-9_]*\):.*/\1/p'); do
    ./bytes "$name" | $second program - >"outputs/$name"
done
$second program ../../crates/counts/data/and_of_63_ors | head -n 8 >outputs/first_of_many
