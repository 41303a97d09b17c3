#!/usr/bin/env bash
# How fast searches in threads, the replay of their logs and the reading of certificates are.
#
#     bench/certificates.sh [PROGRAM]
#
# A source whose function accesses 24 scalars 400 times is built with a budget of 1,000,000 nodes, on one processor and on four. One of eight scalars,
# whose search over three registers ends within the budget, is built on one processor and its certificate is checked there: its log has 842,600 marks. A
# certificate of 100 MB of marks is read, and one of 100 MB of blocks; and three of small frames, with the most memory that their checks hold. The accesses
# are made by a generator with a fixed seed, so that two machines do the same.
set -eu
top=$(cd "$(dirname "${BASH_SOURCE[0]}")/.." && pwd)
program=${1:-$top/c25cc}
room=$(mktemp -d)
trap 'rm -rf "$room"' EXIT
cd "$room"

. "$top/bench/sources.sh"

# timed WHAT WORD..: the seconds of a command.
timed() {
    local started took
    started=$(date +%s%N)
    "${@:2}" > answer || true
    took=$((($(date +%s%N) - started) / 1000000))
    printf '%-40s %4d.%03d  %s\n' "$1" $((took / 1000)) $((took % 1000)) "$(head -n 1 answer | head -c 90)"
}

source_of 24 200 > a.c
timed 'build, one processor' taskset -c 0 "$program" build a.c one.img --budget 1000000
timed 'build, four processors' "$program" build a.c four.img --budget 1000000
cmp one.img.crt four.img.crt
source_of 8 245 > b.c
timed 'build, eight scalars' taskset -c 0 "$program" build b.c b.img -r 3 --budget 1000000
grep '^marks' b.img.crt
timed 'check, eight scalars' taskset -c 0 "$program" check b.img b.img.crt

{
    printf 'C25 CERTIFICATE 2\nframe f\nregisters 1\nstep 1\nscalars 1\nblock 1 0\nlist 0310 0\ncost 1\nclaim best 0 1\nmarks 98461536\n'
    awk 'BEGIN { line = sprintf("%64s", ""); gsub(/ /, "b", line); for (i = 0; i < 1538461; i++) print line; printf "%.32s\n", line }'
    printf 'endframe\nend\n'
} > marks.crt
ls -l marks.crt | awk '{ print $5, "bytes" }'
timed 'read, marks' "$program" check b.img marks.crt
{
    printf 'C25 CERTIFICATE 2\nframe f\nregisters 1\nstep 1\nscalars 1\n'
    awk 'BEGIN { for (i = 0; i < 10000000; i++) print "block 1 0" }'
    printf 'list 0310 0\ncost 10000000\nclaim best 0 1\nmarks 0\nendframe\nend\n'
} > blocks.crt
timed 'read, blocks' "$program" check b.img blocks.crt

# held WHAT FILE: the most memory that the check of a certificate holds, as a part of its length.
held() {
    local process most=0 now
    "$program" check b.img "$2" > answer &
    process=$!
    while now=$(awk '/^VmHWM/ { print $2 }' "/proc/$process/status" 2> none) && [ -n "$now" ]; do
        most=$now
        sleep 0.01
    done
    wait "$process" || true
    echo "$most $(stat -c %s "$2")" | awk -v what="$1" '{ printf "%-40s %.2f times %d bytes\n", what, $1 * 1024 / $2, $2 }'
}

# small FRAMES NAME SCALARS LINES COST: a certificate of frames of this name, so many scalars and lines behind them, and this cost.
small() {
    awk -v frames="$1" -v name="$2" -v scalars="$3" -v lines="$4" -v cost="$5" 'BEGIN {
        print "C25 CERTIFICATE 2"
        for (i = 0; i < frames; i++) printf "frame %s\nregisters 1\nstep 1\nscalars %d\n%scost %d\nclaim optimal\nmarks 1\nc\nendframe\n", name, scalars, lines, cost
        print "end"
    }'
}

small 400000 f 0 '' 0 > none.crt
small 300000 f 1 'block 1 0\nlist 0310 0\n' 1 > one.crt
small 300000 main 0 '' 0 > main.crt
for kind in none one main; do
    timed "frames of one kind, $kind" "$program" check b.img "$kind.crt"
    held "their memory, $kind" "$kind.crt"
done
