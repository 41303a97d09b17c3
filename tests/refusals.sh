#!/usr/bin/env bash
# Refuses each allocation of some commands in turn, one in each run, also inside the threads of a search: the command answers as it does with ample
# memory, or with status 5, and what it stores is whole. It stands outside the gate, takes some minutes, and says how many runs it made.
#
#     tests/refusals.sh [WHAT..]
#
# WHAT: output, filter, pieces, threads, certificate, macros, files; all of them where none is given.
script=refusals
. "$(dirname "${BASH_SOURCE[0]}")/common.sh"

# A library that stands before the C library's and refuses one call for memory, by its number from 1 on. Where the program ends it tells how many
# there were.
cat > refuse.c <<'END'
#define _GNU_SOURCE
#include <dlfcn.h>
#include <errno.h>
#include <stdatomic.h>
#include <stdio.h>
#include <stdlib.h>
#include <sys/syscall.h>
#include <unistd.h>

static atomic_long calls;
static long refused;
static void *(*real_malloc)(size_t);
static void *(*real_realloc)(void *, size_t);
static int begun;

__attribute__((constructor)) static void begin(void) {
    const char *number = getenv("REFUSE");
    refused = number ? atol(number) : 0;
    real_malloc = dlsym(RTLD_NEXT, "malloc");
    real_realloc = dlsym(RTLD_NEXT, "realloc");
    begun = 1;
}

static int is_refused(void) {
    if (!begun || atomic_fetch_add(&calls, 1) + 1 != refused) return 0;
    errno = ENOMEM;
    return 1;
}

void *malloc(size_t size) {
    if (!real_malloc) real_malloc = dlsym(RTLD_NEXT, "malloc");
    return is_refused() ? NULL : real_malloc(size);
}

void *realloc(void *at, size_t size) {
    if (!real_realloc) real_realloc = dlsym(RTLD_NEXT, "realloc");
    return is_refused() ? NULL : real_realloc(at, size);
}

void _exit(int status) {
    const char *name = getenv("COUNTED");
    long counted = atomic_load(&calls);
    begun = 0;
    FILE *file = name ? fopen(name, "w") : NULL;
    if (file) {
        fprintf(file, "%ld\n", counted);
        fclose(file);
    }
    syscall(SYS_exit_group, status);
    __builtin_unreachable();
}
END
gcc -O1 -shared -fPIC -o refuse.so refuse.c -ldl || exit 1

runs=0
wanting=0

# keeps NAME: the file isn't there, or as a run with ample memory leaves it.
keeps() { [ ! -e "stored/$1" ] || cmp -s "stored/$1" "ample/$1" || fail "a part of $1 is stored, at allocation $number of '$words'"; }

# refused_at WORD..: the command where allocation `number` is refused. What it stores goes to the folder `stored`.
refused_at() {
    local status
    rm -rf stored
    mkdir stored
    (cd stored && REFUSE=$number LD_PRELOAD=$room/refuse.so "$program" "$@") > said 2> errors
    status=$?
    runs=$((runs + 1))
    case $status in
        # (a line that refuses is left out where there is no memory to make it)
        "$ends") cmp -s said wanted || { { [ "$ends" -eq 1 ] || [ "$ends" -eq 9 ]; } && [ ! -s said ]; } || fail "another answer at allocation $number of '$words': $(head -n 1 said)" ;;
        5)
            wanting=$((wanting + 1))
            [ ! -s said ] || [ "$(cat said)" = 'want of memory' ] || fail "at allocation $number of '$words': $(head -n 1 said)"
            ;;
        *) fail "status $status at allocation $number of '$words': $(head -n 1 said)" ;;
    esac
    keeps made.img
    keeps made.img.crt
    keeps made.c
    [ ! -e stored/made.img.crt ] || [ -e stored/made.img ] || fail "a certificate without an image at allocation $number of '$words'"
}

# each STATUS WORD..: the command with each of its allocations refused in turn, which ends with this status where memory is ample.
each() {
    local count began=$runs was=$wanting
    ends=$1
    shift
    words=$*
    rm -rf ample
    mkdir ample
    (cd ample && COUNTED=$room/counted LD_PRELOAD=$room/refuse.so "$program" "$@") > wanted
    [ "$?" -eq "$ends" ] || fail "'$words' fails with ample memory: $(head -n 1 wanted)"
    count=$(cat counted)
    for ((number = 1; number <= count; number++)); do
        refused_at "$@"
    done
    [ "$wanting" -gt "$was" ] || fail "no refused allocation was missed by '$words'"
    echo "refusals: $words: $((runs - began)) allocations, $((wanting - was)) of them wanted"
}

# pairs SCALARS: a sequence with a block for each pair.
pairs() {
    echo "scalars $1"
    for ((i = 0; i < $1; i++)); do for ((j = i + 1; j < $1; j++)); do echo "block 1 $i $j"; done; done
    echo end
}

: > none
printf 'int main(void){__out(1,5); return 7;}' > output.c
pairs 8 > eight
pairs 6 > six
printf '0 0008\n0 fffc\n0 0000\n' > ports
cat > filter.c <<'END'
int h[16] = {1,2,3,4,5,6,7,8,8,7,6,5,4,3,2,1};
int x[16];
int fir(int s) {
    int acc; int i; int *p;
    for (i = 15; i > 0; i--) x[i] = x[i - 1];
    x[0] = s;
    acc = 0; p = h;
    for (i = 0; i < 16; i++) acc += x[i] * *p++;
    return acc >> 2;
}
int main(void) { for (;;) __out(1, fir(__in(0))); return 0; }
END

# Ten scalars that are read in turn: more pieces than a round has, in threads.
{
    printf 'int main(void){int a=1,b=2,c=3,d=4,e=5,f=6,g=7,h=8,i=9,j=10;'
    for pair in ab cd ef gh ij ac bd eg fh ia jb ad be cf dg eh fi gj ha ib jc; do
        printf '%s += %s;' "${pair:0:1}" "${pair:1:1}"
    done
    printf '__out(1, a + j); return 0;}\n'
} > threads.c

output() {
    each 0 build ../output.c made.img
    "$program" build output.c output.img > /dev/null
    each 0 run ../output.img ../none
    each 0 check ../output.img ../output.img.crt
    each 0 dis ../output.img
    printf 'break 0003\ngo 100\nregs\nmem 0300 16\nstack\ngo 100\n' > script
    each 0 debug ../output.img ../none ../script
}

filter() {
    each 0 build ../filter.c made.img
    each 0 exec ../filter.c ../ports
    each 0 means ../filter.c ../ports
    "$program" build filter.c filter.img > /dev/null
    each 0 check ../filter.img ../filter.img.crt
}

pieces() {
    each 0 layout ../eight
    each 0 layout ../six -r 4
}

threads() { each 0 build ../threads.c made.img --budget 2000; }

# three COST MARKS: a certificate of three scalars.
three() {
    printf 'C25 CERTIFICATE 2\nframe f\nregisters 1\nstep 1\nscalars 3\nblock 1 0 1 2 0\nlist 0310 1 0 2\ncost %s\nclaim optimal\nmarks 4\n%s\nendframe\nend\n' "$1" "$2"
}

# A function whose words access them so: its log fits, leaves out a mark, closes the root, branches at a complete node, and its cost is another.
certificate() {
    printf 'C25 IMAGE 1\nwords 9\nd200 0311 558a 2090 2080 7e02 2090 2080\nce26\nfunc f 0000 0008\nend\n' > three.img
    three 2 bccc > three.crt
    each 0 check ../three.img ../three.crt
    three 2 bcc > three.crt
    each 9 check ../three.img ../three.crt
    for marks in cccc bccb; do
        three 2 "$marks" > three.crt
        each 8 check ../three.img ../three.crt
    done
    three 1 bccc > three.crt
    each 8 check ../three.img ../three.crt
}

# Macros in macros, one that is named as a keyword, and sections in sections.
macros() {
    {
        seq -f '#define m%.0f (n + 1)' 40
        printf '#define n m2 x\n#define while if\n#define N 3\n#undef N\n#ifdef n\n#ifdef N\n#if 1\n#else\n#endif\n#else\n'
        seq -f "while (m%.0f) a = 'a' + 0x1fu;" 40
        printf '#endif\n#endif\n'
    } > macros.c
    each 0 pre ../macros.c made.c
    printf '#define n 4\n' >> macros.c
    each 1 pre ../macros.c made.c
}

# Statics that are renamed and externs that are left out, and files that aren't joined: for a name that no file defines or a reserved one.
files() {
    {
        seq -f 'static int n%.0f;' 40
        printf 'extern int k;\nextern int next(void){n1 = n1 + k; return n1;}\n'
    } > next.c
    printf "int next(void);\nstatic int n1 = 0x1f;\nint k = 'a';\nint main(void){return next() + n1;}\n" > main.c
    each 0 join made.c ../next.c ../main.c
    each 1 join made.c ../next.c
    printf 'int n__1;\n' > reserved.c
    each 1 join made.c ../main.c ../reserved.c
}

[ "$#" -gt 0 ] || set -- output filter pieces threads certificate macros files
for what; do "$what"; done
[ "$failed" -eq 0 ] && echo "refusals: $runs allocations were refused, $wanting of them ended with status 5, and nothing was stored in part"
exit "$failed"
