#!/usr/bin/env bash
# How well the pieces of searches share four processors.
#
#     bench/threads.sh [PROGRAM]
#
# Sources whose function accesses many scalars are built with a budget of 1,000,000 nodes, all of which their searches use: on one processor and on four in
# turn, twelve times each, since the speed of a machine that is shared with others changes from one moment to the next. Told are how many times as fast four
# are, by all seconds together, by the middle pair, and of how many pairs it is three times. Where valgrind is installed, the instructions of each thread are
# counted besides, which no other work on the machine changes: so many times fewer than on one processor are done one behind another on four, namely what
# the command does besides, and of each round of four pieces the one that takes most.
set -eu
top=$(cd "$(dirname "${BASH_SOURCE[0]}")/.." && pwd)
program=${1:-$top/c25cc}
room=$(mktemp -d)
trap 'rm -rf "$room"' EXIT
cd "$room"

# A library that has the instructions of each thread told: of the one that begins the others where a round begins and where its own piece is done, and of
# each other one where it ends. The first thread of all is the one that begins the others.
cat > threads.c <<'END'
#define _GNU_SOURCE
#include <dlfcn.h>
#include <pthread.h>
#include <stdlib.h>
#include <valgrind/callgrind.h>

struct call { void *(*body)(void *); void *argument; };

static int begun, own_piece_runs;

static void *counted(void *given) {
    struct call call = *(struct call *)given;
    void *result;
    free(given);
    result = call.body(call.argument);
    CALLGRIND_DUMP_STATS;
    return result;
}

int pthread_create(pthread_t *thread, const pthread_attr_t *how, void *(*body)(void *), void *argument) {
    static int (*real)(pthread_t *, const pthread_attr_t *, void *(*)(void *), void *);
    struct call *call = malloc(sizeof *call);
    int number = begun++;
    if (!real) real = (int (*)(pthread_t *, const pthread_attr_t *, void *(*)(void *), void *))dlsym(RTLD_NEXT, "pthread_create");
    if (number % 3 == 1) { own_piece_runs = 1; CALLGRIND_DUMP_STATS; }
    call->body = body;
    call->argument = argument;
    return real(thread, how, counted, call);
}

int pthread_join(pthread_t thread, void **result) {
    static int (*real)(pthread_t, void **);
    if (!real) real = (int (*)(pthread_t, void **))dlsym(RTLD_NEXT, "pthread_join");
    if (own_piece_runs) { own_piece_runs = 0; CALLGRIND_DUMP_STATS; }
    return real(thread, result);
}
END
counts=
if command -v valgrind > none && gcc -O1 -shared -fPIC -o threads.so threads.c -ldl 2> none; then counts=yes; fi

. "$top/bench/sources.sh"

# on PROCESSORS: the seconds of a build on these.
on() {
    local started
    started=$(date +%s%N)
    taskset -c "$1" "$program" build a.c a.img -r "$registers" --budget 1000000 > answer
    echo "$started $(date +%s%N)" | awk '{ printf "%.3f\n", ($2 - $1) / 1000000000 }'
}

# Twelve pairs: one processor, each in its turn, and all four.
pairs() {
    local try
    for try in 0 1 2 3 4 5 6 7 8 9 10 11; do
        echo "$(on $((try % 4))) $(on 0-3)"
    done
}

# What is told of pairs, with the middle one of their quotients.
told() {
    awk '{ print $1 / $2, $1, $2 }' | sort -n | awk '
        { one += $2; four += $3; at[NR] = $1; least += $1 >= 3 }
        END { printf "%.3f s on one, %.3f s on four, %.2f times; the middle pair %.2f times, %d of %d at least 3", one / NR, four / NR, one / four, (at[6] + at[7]) / 2, least, NR }'
}

# instructions: how many times fewer instructions are done one behind another on four processors, by what each thread tells as it goes.
instructions() {
    rm -f told.*
    LD_PRELOAD=$room/threads.so valgrind --tool=callgrind --separate-threads=yes --callgrind-out-file=told "$program" build a.c a.img -r "$registers" --budget 1000000 > answer 2>&1
    grep '^totals' told.*-* | sed 's/^told\.\([0-9]*\)-\([0-9]*\):totals: /\1 \2 /' | sort -n | awk '
        { all += $3 }
        $2 == "02" { own++ }
        $2 == "02" && own % 2 == 1 { chain += longest + $3; longest = 0 }
        $2 != "02" || own % 2 == 0 { longest = $3 > longest ? $3 : longest }
        END { chain += longest; printf "; %.0f million instructions, %.2f times fewer one behind another", all / 1000000, all / chain }'
}

for scalars in 16 24 32; do
    for registers in 2 3 4; do
        source_of "$scalars" 200 > a.c
        printf '%s scalars, %s registers: %s' "$scalars" "$registers" "$(pairs | told)"
        [ -z "$counts" ] || instructions
        echo
    done
done
