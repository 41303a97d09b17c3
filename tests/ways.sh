#!/usr/bin/env bash
# Counts the ways through crates.txt, from each crate to each below it, and the crates of its longest chain. `rt` follows every way anew,
# so their number is time before the first proof, and the chain is what no number of processors shortens.
most_ways=20000
most_chain=14
list=$(dirname "${BASH_SOURCE[0]}")/../crates.txt

awk -v most_ways="$most_ways" -v most_chain="$most_chain" '
    # ways(c) is 1 and the ways of each crate that its line names; chain(c) is 1 and the longest of theirs.
    function measure(crate,    names, count, i) {
        if (crate in ways) return
        count = split(line[crate], names, " ")
        for (i = 1; i <= count; i++) if (names[i] in line) measure(names[i])
        ways[crate] = chain[crate] = 1
        for (i = 1; i <= count; i++) if (names[i] in line) {
            ways[crate] += ways[names[i]]
            if (chain[names[i]] >= chain[crate]) chain[crate] = chain[names[i]] + 1
        }
    }
    { sub(/#.*/, "") }
    /:/ { crate = $1; sub(/:$/, "", crate); sub(/^[^:]*:/, ""); line[crate] = $0 }
    END {
        for (crate in line) { measure(crate); all += ways[crate]; if (chain[crate] > longest) longest = chain[crate] }
        printf "ways: %d through crates.txt (at most %d), longest chain %d crates (at most %d)\n", all, most_ways, longest, most_chain
        exit all == 0 || all > most_ways || longest > most_chain
    }' "$list"
