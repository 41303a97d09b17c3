#!/usr/bin/env bash
# many_functions.sh N: a program of N functions with a loop each, which main calls one after another, or with `lines` behind N what
# it puts, by the rules of the language.
awk -v functions="$1" -v lines="${2:-}" 'BEGIN {
    x = 1
    for (i = 0; i < functions; i++) {
        factor[i] = (7 * i + 3) % 16
        for (j = 0; j < 4; j++) x = (x + (i + 1) * factor[i]) % 1024
        if (lines) printf "1 %04x\n", x
    }
    if (lines) {
        printf "returned %04x\n", x
        exit
    }
    for (i = 0; i < functions; i++)
        printf "int f%d(int a, int b) { int s; int j; s = a; for (j = 0; j < 4; j++) s = (s + b * %d) & 1023; return s; }\n", i, factor[i]
    print "int main(void) { int x; x = 1;"
    for (i = 0; i < functions; i++) printf "x = f%d(x, %d); __out(1, x);\n", i, i + 1
    print "return x; }"
}'
