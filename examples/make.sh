#!/bin/sh
# Makes the trees of this directory from their typed equations, and what the program must write for each. The metropolis is typed by metropolis.sh.
# The .names files say which event and gate got which number; corridor.cuts has the cuts by name, as c/equations prints them, and corridor.sizes,
# metropolis.sizes and folder.sizes how many there are of each size, in these two and in three trees together, as c/sizes prints them.
# corridor.store has the settings of corridor.settings, and corridor.seasons what c/season prints of the corridor under its editions.
# corridor_sites is the corridor with the sites of corridor.sites. corridor.reports has what c/report prints under editions 1 and 2, and 3, which is refused.
# corridor.plan has what c/plan prints: a proposal, checked; a set that is not enough; a name that there is not. trees.importance has what c/importance prints of three trees.
# decisions.out has what c/decide prints of the listings and sets in decisions: NAME.listing are the bytes of a listing, corridor_winter's under edition 1, torn's without their last byte.
set -e
cd "$(dirname "$0")"
cargo build --release --offline --quiet -j1 --manifest-path ../tests/second/Cargo.toml
second=../tests/second/target/release/second
./metropolis.sh > metropolis.txt
for tree in case1 case6 corridor european1 metropolis; do
    $second equations $tree.txt > $tree.tree
    $second names $tree.txt > $tree.names
    $second program $tree.tree > $tree.out
done
# shellcheck disable=SC2046 # a word for each site
$second at corridor.tree $(awk '$1 == "event" { name[$2] = $3; next } NF == 2 { site[$1] = $2 } END { for (e = 0; e in name; e++) print site[name[e]] }' corridor.names corridor.sites) > corridor_sites.tree
$second program corridor_sites.tree > corridor_sites.out
awk -f by_name.awk corridor.names corridor.out > corridor.cuts
$second sizes corridor.tree > corridor.sizes
{ $second plan corridor.txt; $second plan corridor.txt clockNorth server; $second plan corridor.txt nobody; } > corridor.plan
for edition in 1 2 3; do $second report corridor.tree $edition; done > corridor.reports
# shellcheck disable=SC2046 # a word for each setting
$second store $(awk 'FNR == NR { number[$3] = $2; next } { print $1 ":" number[$2] ":" $3 }' corridor.names corridor.settings) > corridor.store
for edition in 1 2 3 4; do $second season corridor.tree corridor.store $edition; done > corridor.seasons
$second sizes metropolis.tree > metropolis.sizes
for tree in case1 corridor european1; do $second importance $tree.tree; done > trees.importance
$second sizes case1.tree corridor.tree european1.tree > folder.sizes
for tree in case1 corridor; do $second listing $tree.tree > $tree.listing; done
$second listing corridor.tree corridor.store 1 > corridor_winter.listing
head -c 9 case1.listing > torn.listing
while read -r listing events failed; do
    echo "$listing of $events events:${failed:+ $failed}"
    # shellcheck disable=SC2086 # a word for each event
    $second decide $listing.listing "$events" $failed
done < decisions > decisions.out
