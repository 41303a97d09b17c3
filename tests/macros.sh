#!/usr/bin/env bash
# The built program's macros and sections: the sources of macros.txt, each limit and one above it, large sources with their times, files
# that can't be read or written, sources without a directive, and the example. Expected values stand there and here, by hand from docs/.
script=macros
. "$(dirname "${BASH_SOURCE[0]}")/common.sh"

# answers ANSWER WHAT: where ANSWER is `stored`, `pre` of s puts nothing and stores what the file `wanted` holds; else s is refused so, and
# the file o is left as it was.
answers() {
    local got line="source refused: $1"$'\n''status 1'
    echo kept | tee o > kept
    [ "$1" != stored ] || { cp wanted kept; line='status 0'; }
    got=$("$program" pre s o; echo "status $?")
    [ "$got" = "$line" ] && cmp -s o kept || fail "$2 gave: $(head -c 300 <<< "$got"), and in o stands: $(head -c 300 o | tr -d '\0')"
}
# within MS ANSWER WHAT: the answer takes less than so many milliseconds.
within() {
    local took started=$(date +%s%N)
    answers "$2" "$3"
    took=$((($(date +%s%N) - started) / 1000000))
    echo "macros: $3 took $took ms"
    [ "$took" -lt "$1" ] || fail "$3 took $took ms"
}
# lines COUNT TEXT: so many times this text, each with a line feed. text COUNT TEXT: the same without them.
lines() { TEXT=$2 awk -v n="$1" 'BEGIN { while (n-- > 0) print ENVIRON["TEXT"] }'; }
text() { lines "$@" | tr -d '\n'; }

# The rows. What is stored has no directive, so the same is stored for it again.
rows=0
while IFS= read -r row; do
    rows=$((rows + 1))
    shows "${row%% | *}" | tee s > source
    case ${row#* | } in
        'source refused: '*) answers "${row#* | source refused: }" "'$row'" ;;
        *) shows "${row#* | }" > wanted; answers stored "'$row'"; cp o s; answers stored "'$row', again,"; cp source s ;;
    esac
done < <(grep ' | ' "$top/tests/macros.txt")
[ "$(echo *)" = 'kept o s source wanted' ] || fail "other files are left: $(echo *)"
shows "$(grep ' | ' "$top/tests/macros.txt" | head -n 1 | sed 's/ | .*//')" > s
wants 0 '' pre s o
: > none
wants 0 $'0 0006\nreturned 0003' exec o none

# The limits. `tokens` has 200,000 tokens. In `bodies` the macro M has 199,999, N has 200,001, and a section that is skipped has as many. In
# `powers` the macro mK makes ten to the power K replacements, itself among them, and `most` one less than a million. `thousand` has 1,000
# macros, m1 and so on. A row is a file, the text that stands after it, and the answer; FILE.wanted is what is stored.
lines 200000 ';' | tee tokens tokens.wanted bodies.wanted > both.wanted
{ echo "#define M $(text 199999 ';')"; echo "#define N $(text 200001 ';')"; echo '#ifdef X'; lines 200001 ';'; echo '#endif'; } > bodies
next=
for k in 0 1 2 3 4 5 6; do echo "#define m$k $next"; most=$next; next+=$(text 9 "m$k "); done > powers
: > powers.wanted
{ cat powers; printf '#define N ;\n#define T ; m6\n#define R m0 ;\n'; cat tokens; } > both
awk 'BEGIN { for (i = 1; i <= 1000; i++) print "#define m" i, i }' > thousand
printf '1 1000 ' > thousand.wanted
size=$(wc -c < thousand)
while IFS= read -r row; do
    front=${row%% | *}
    row=${row#* | }
    { cat "$front"; shows "${row%% | *}"; } > s
    cp "$front.wanted" wanted
    answers "${row#* | }" "'${row%% | *}' after $front"
done <<ROWS
tokens | #define N a\n#undef N\n#define N\nN\n#ifdef X\na;\n#else a\n#pragma a\n#endif a | stored
tokens | a @ | too many tokens 200001
tokens | @ | bad byte at byte 400000
tokens | #foo | bad directive at byte 400000
tokens | #endif | unbalanced section at byte 400000
tokens | #define N 1\n#define N 2 | macro redefined at byte 400020
tokens | #define N N\nN @ | too many tokens 200001
tokens | #define N\nN N @ | bad byte at byte 400014
bodies | M ; | stored
bodies | M ;; | too many tokens 200001
bodies | N @ | too many tokens 200001
powers | $most m0 | stored
powers | $most m1 @ | too many replacements 1000001
powers | m6 @ | bad byte at byte $(($(wc -c < powers) + 3))
both | m6 | stored
both | m6 N @ | too many replacements 1000001
both | $most T | too many tokens 200001
both | $most R | too many replacements 1000001
thousand | #define m7 7\nm1 m1000 | stored
thousand | #undef n\n#ifdef n\n#define n\n#endif\nm1 m1000 | stored
thousand | #undef m7\n#define n 1\nn m1000 | stored
thousand | #define n 1\n@ | too many macros 1001
thousand | #define n @ | bad byte at byte $((size + 10))
thousand | #define m7 07 | macro redefined at byte $((size + 8))
thousand | #undef m7\n#define n\n#define m7 7 | too many macros 1001
ROWS

# Sections in sections: 200 of them, and as many as a source has room for.
printf 'a ;\n' > wanted
for open in '#ifndef X' $'#ifdef X\n#else' $'#ifndef X\n#ifdef X\n#if\n#elif\n#endif\n#endif'; do
    { lines 200 "$open"; echo 'a;'; lines 200 '#endif'; } > s
    answers stored "200 times '$open'"
done
: > wanted
{ lines 65536 '#ifdef X'; lines 65536 '#endif'; } > s
within 800 stored '65,536 sections'
lines 104857 '#ifndef X' > s
within 800 'unbalanced section at byte 1048560' '104,857 sections that are not closed'

# Large sources: of one kind of line, 1,000,000 replacements of three kinds, names with and without 1,000 macros, and a large body.
for line in '' '#' '/**/' '#pragma "' '#define N 1' $'#define N 1\n#undef N' $'#ifdef N\n#else\n#endif' $'#ifdef N\n"@ /*\n#endif */\n#endif'; do
    lines $((1048576 / (${#line} + 1))) "$line" > s
    within 800 stored "1 MiB of '$line'"
done
{ cat powers; echo m6; } > s
within 4000 stored '1,000,000 replacements in macros of macros'
{ echo '#define e'; echo "#define f $(text 62499 'e ')"; text 16 'f '; } > s
within 4000 stored '1,000,000 replacements in a macro of 62,499 tokens'
{ awk 'BEGIN { print "#define m999 x"; for (i = 998; i > 0; i--) print "#define m" i " m" i + 1 }'; text 1001 'm1 '; echo m999; } > s
text 1002 'x ' > wanted
within 4000 stored '1,000,000 replacements in a chain of 999 macros'
seq -f 'n%06.0f' 0 131071 | tr '\n' ' ' | tee s > wanted
within 800 stored '131,072 names'
seq -f 'n%06.0f' 0 128999 | tr '\n' ' ' > wanted
{ seq -f '#define n%06.0f' 200000 200999; cat wanted; } > s
within 800 stored '129,000 names beside 1,000 macros'
{ echo "#define N $(text 30000 'a;')"; echo N N N; } > s
lines 90000 'a ;' > wanted
within 800 stored 'a body of 60,000 tokens three times'

# Files: SRC may be 1,048,576 bytes long, and OUT may be SRC. Where SRC is refused, or OUT can't be written, nothing is stored elsewhere.
lines 1048577 '' > long
echo '#if' > bad
rm o
for row in '9;file refused: long too long;long o' '9;file refused: long too long;long no/o' '3;read fault: absent;absent o' '3;read fault: .;. no/o' \
    '1;source refused: bad directive at byte 0;bad o' '1;source refused: bad directive at byte 0;bad no/o' '4;;s no/o' '4;;s .' '2;words refused;s'; do
    IFS=';' read -r status line words <<< "$row"
    wants "$status" "$line" pre $words
    [ ! -e o ] || fail "'pre $words' stored something"
done
wants 0 '' pre s s
cmp -s s wanted || fail 'another text stands over its source'
[ ! -w /dev/full ] || { "$program" pre s o > /dev/full && ! "$program" pre bad o > /dev/full; } || fail 'a full output changed a status'

# A source without a directive is built from what is stored for it as from itself. The example is built from what is stored for it alone.
sources=0
for source in $(grep -L '#' "$top"/examples/*.c); do
    sources=$((sources + 1))
    "$program" pre "$source" o && "$program" build "$source" i > wanted && "$program" build o j > got && cmp -s got wanted && cmp -s i j &&
        cmp -s i.crt j.crt || fail "$source is built otherwise from what is stored for it"
done
meter=$top/examples/macros/meter
wants 1 "source refused: bad byte at byte $(grep -obm 1 '#' "$meter.c" | head -n 1 | cut -d : -f 1)" build "$meter.c" i
wants 0 '' pre "$meter.c" o
"$program" build o i > got || fail "a build of the example gave: $(cat got)"
for words in 'run i' 'exec o' 'means o'; do wants 0 "$(cat "$meter.out")" $words "$meter.in"; done
[ "$rows" -ge 951 ] && [ "$sources" -ge 12 ] || fail "macros.txt has $rows sources, and examples/ has $sources"
exit "$failed"
