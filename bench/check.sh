#!/bin/sh
# Compares the plain program with the second one: examples, then city-like trees, then many seeded trees.
#   bench/check.sh [SEEDS [ARCHIVE]]    with an archive, the library in the plain program's place
set -e
cd "$(dirname "$0")/.."
cargo build --release --offline --quiet -j1 --manifest-path tests/second/Cargo.toml
second=tests/second/target/release/second
work=$(mktemp -d)
trap 'rm -rf "$work"' EXIT
cc -std=c11 -O2 -Wall -Wextra -Iinclude -o "$work/plain" bench/main.c ${2:-bench/plain.c bench/plain_listing.c}
compared=0
same() { # FILE ROOM MOST MEMO
    $second plain "$1" "$2" "$3" > "$work/second.out"
    "$work/plain" "$1" 1000000 1000000 "$4" "$2" "$3" > "$work/plain.out"
    cmp "$work/second.out" "$work/plain.out" || { echo "differs: $1"; exit 1; }
    compared=$((compared + 1))
}
for tree in examples/*.tree; do
    # Without a memo to speak of a large tree takes forever.
    case $tree in */european1.tree | */metropolis.tree) memos="1000 65536" ;; *) memos="0 1 1000 65536" ;; esac
    for memo in $memos; do
        same "$tree" 2817 100000 $memo
    done
done
for size in small middle large wide; do
    $second city $size | $second equations - > "$work/$size.tree"
    same "$work/$size.tree" 65536 100000 1000000
done
for seed in $(seq 1 ${1:-200}); do
    $second random $seed > "$work/random.tree"
    same "$work/random.tree" 600 500 $((seed % 7 * 100 + 4))
done
for seed in $(seq 1 $((${1:-200} / 4))); do
    $second random $seed wide > "$work/wide.tree"
    same "$work/wide.tree" 4000 500 1000
done
for seed in $(seq 1 $((${1:-200} / 4))); do
    $second random $seed sited > "$work/sited.tree"
    same "$work/sited.tree" 600 500 1000
done
echo "$compared compared, 0 differ"
