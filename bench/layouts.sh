#!/usr/bin/env bash
# How fast layouts are searched: 200 accesses to 12, 16 and 24 scalars in eight blocks, over 1 to 4 registers, at steps 1 and 2,
# with a budget of 1,000,000 nodes. Each row has the seconds of the whole command and what it found. An exhausted search has visited
# at most so many nodes as its budget allows, and one that is certified may have visited far fewer.
#
#     bench/layouts.sh [PROGRAM]
#
# The accesses are made by a generator with a fixed seed, so that two machines search the same.
set -eu
program=${1:-$(cd "$(dirname "${BASH_SOURCE[0]}")/.." && pwd)/c25cc}
room=$(mktemp -d)
trap 'rm -rf "$room"' EXIT

# sequence SCALARS STEP: eight blocks of 25 accesses.
sequence() {
    awk -v scalars="$1" -v step="$2" 'BEGIN {
        seed = 12345
        printf "scalars %d\n", scalars
        if (step > 1) printf "step %d\n", step
        for (block = 0; block < 8; block++) {
            printf "block 1"
            for (access = 0; access < 25; access++) {
                seed = seed * 16807 % 2147483647
                printf " %d", int(seed / 65536) % scalars
            }
            printf "\n"
        }
        printf "end\n"
    }'
}

printf '%7s %9s %4s %8s  %s\n' scalars registers step seconds answer
for step in 1 2; do
    for scalars in 12 16 24; do
        sequence "$scalars" "$step" > "$room/sequence"
        for registers in 1 2 3 4; do
            started=$(date +%s%N)
            answer=$("$program" layout "$room/sequence" -r "$registers" --budget 1000000 | head -n 1)
            took=$((($(date +%s%N) - started) / 1000000))
            printf '%7d %9d %4d %4d.%03d  %s\n' "$scalars" "$registers" "$step" $((took / 1000)) $((took % 1000)) "$answer"
        done
    done
done
