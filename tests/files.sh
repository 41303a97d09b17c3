#!/usr/bin/env bash
# The built program's programs of several files: the cases of files.txt, each limit and one above it, large files with their times, files
# that can't be read or written, and the programs in joined/ and examples/files. Expected values of these programs come from another C
# compiler (joined/expected.sh). The cases were decided by hand, without the code, and so was the rest, from docs/.
script=files
. "$(dirname "${BASH_SOURCE[0]}")/common.sh"

# joins ANSWER WHAT FILE..: where ANSWER is `stored`, `join` of the files puts nothing and stores what the file `wanted` holds; else they
# are refused so, and the file o is left as it was.
joins() {
    local got what=$2 line="source refused: $1"$'\n''status 1'
    echo kept | tee o > kept
    [ "$1" != stored ] || { cp wanted kept; line='status 0'; }
    shift 2
    got=$("$program" join o "$@"; echo "status $?")
    [ "$got" = "$line" ] && cmp -s o kept || fail "$what gave: $(head -c 300 <<< "$got"), and in o is: $(head -c 300 o | tr -d '\0')"
}
# within MS ANSWER WHAT FILE..: the answer takes less than so many milliseconds.
within() {
    local most=$1 took started=$(date +%s%N)
    shift
    joins "$@"
    took=$((($(date +%s%N) - started) / 1000000))
    echo "files: $2 took $took ms"
    [ "$took" -lt "$most" ] || fail "$2 took $took ms"
}
# gives LINES PORTS FILE: what `exec` and `means` of a source put on the words of PORTS, and `run` of its image; or how it is refused.
gives() {
    local status=0
    [[ $1 != 'source refused: '* ]] || status=1
    wants "$status" "$1" exec "$3" "$2" --steps 10000000
    wants "$status" "$1" means "$3" "$2"
    if [ "$status" -eq 1 ]; then wants 1 "$1" build "$3" i; return; fi
    "$program" build "$3" i > report && wants 0 "$1" run i "$2" --steps 10000000 || fail "a build of $3 gave: $(cat report)"
}
# again FILE: what is stored has no directive, so `pre` stores the same text for it.
again() { wants 0 '' pre "$1" p; cmp -s p "$1" || fail "another text is stored by pre for $(head -c 300 "$1")"; }
# tokens COUNT: a file of so many tokens, in the form in which they are stored.
tokens() { awk -v n="$1" 'BEGIN { for (; n % 3; n -= 5) print "int a , b ;"; for (; n > 0; n -= 3) print "int a ;" }'; }
# mega FILE..: these files are filled up with blanks to 1,048,576 bytes.
mega() { for file in "$@"; do printf '%*s' $((1048576 - $(wc -c < "$file"))) '' >> "$file"; done; }

# The cases.
: > none
rows=0
while IFS= read -r line; do
    case $line in
        'name '*) rows=$((rows + 1)); name="'${line#name }'"; files=() ;;
        'file '*) files+=("f$((${#files[@]} + 1))"); shows "${line#file }" > "${files[-1]}" ;;
        'text '*) shows "${line#text }" > wanted; joins stored "$name" "${files[@]}"; again o ;;
        'source refused: '*) joins "${line#source refused: }" "$name" "${files[@]}" ;;
        'gives '*) line=${line#gives }; gives "${line//, /$'\n'}" none o ;;
        '#'*) ;;
        *) fail "files.txt has the line '$line'" ;;
    esac
done < "$top/tests/files.txt"

# The number of tokens: each file has at most 200,000, and so have all together. `extern` counts in its file alone.
for count in 99999 100000 100001 199999 200000 200001; do tokens $count > t$count; done
for count in 100000 199999 200000; do { printf 'extern '; cat t$count; } > e$count; done
awk 'BEGIN { for (i = 0; i < 50000; i++) print "extern int a ;" }' > externs
printf 'int a;' > least
printf '@' > bad
printf 'int' > short
printf 'int f(void){return g;}' > unknown
printf 'int a__1;' > reserved
printf 'extern int k;' > undefined
printf 'static int a;' > own
while read -r sources; do
    read -r answer
    sed 's/extern //; s/int a;/int a ;\n/' $sources > wanted
    joins "$answer" "'$sources'" $sources
done <<'ROWS'
t200000
stored
t200001
file 1: too many tokens 200001
e199999
stored
e200000
file 1: too many tokens 200001
externs least
stored
externs externs
undefined a
externs externs least
too many tokens 300003
t100000 t100000
stored
t99999 t100001
stored
t100000 t100001
too many tokens 200001
e100000 e100000
stored
e100000 t100001
too many tokens 200001
t200000 least
too many tokens 200003
least t199999
too many tokens 200002
least t200001
file 2: too many tokens 200001
t200001 bad
file 1: too many tokens 200001
bad t200001
file 1: bad byte at byte 0
t200000 t200000
too many tokens 400000
t200000 t200000 t200000 t200000 t200000 t200000 t200000 t200000 t200000 t200000 t200000 t200000 t200000 t200000 t200000 t200000
too many tokens 3200000
t200000 t200000 t200001
file 3: too many tokens 200001
t200000 t200000 bad
file 3: bad byte at byte 0
t200000 t200000 short
file 3: syntax at byte 3
t200000 t200000 unknown
file 3: undeclared at byte 19
t200000 t200000 reserved
file 3: reserved name at byte 4
t200000 t200000 undefined
undefined k
undefined reserved t200000
file 2: reserved name at byte 4
own t200000
too many tokens 200004
ROWS

# What `build` refuses for a count is joined. A file's tree is as high as that of a source may be.
awk 'BEGIN { for (i = 1; i <= 257; i++) printf "int f%d ( void ) {\nreturn %d ;\n}\n", i, i }' > functions
awk 'BEGIN { printf "int f ( int a ) {\n"; for (i = 1; i <= 65; i++) printf "int b%d ;\n", i; print "return a ;\n}" }' > scalars
awk 'BEGIN { printf "int f ( int a ) {\nswitch ( a ) {\n"; for (i = 1; i <= 257; i++) printf "case %d : ;\n", i; print "}\nreturn a ;\n}" }' > cases
printf 'int main ( void ) {\nreturn 1 ;\n}\n' > main
while read -r file limit; do
    cat $file main > wanted
    joins stored "$file" $file main
    wants 1 "source refused: limit $limit" build o i
done <<'ROWS'
functions functions 258
scalars scalars 66
cases cases 257
ROWS
for i in 0 1 2 3 4 5 6 7 8 9 10 11 12 13 14; do sed -n "$((i * 51 + 1)),$((i * 51 + 51))p" functions > part$i; done
cat part? part1? main > wanted
joins stored '255 functions in fifteen files' part? part1? main
gives 'returned 0001' none o
nested() {
    awk -v n="$1" 'BEGIN { printf "int f ( void ) {\nreturn "; for (i = 0; i < n; i++) printf "1 - ( "
        printf "1 "; while (n-- > 0) printf ") "; print ";\n}" }'
}
nested 195 > wanted
{ printf 'extern '; cat wanted; } > high
{ printf 'extern '; nested 196; } > higher
joins stored 'a tree 200 high' high
joins 'file 2: syntax at byte 1203' 'a tree 201 high' main higher

# Large files: sixteen of 1 MiB and 12,500 tokens each, so together 200,000. They have the same names, or other ones in each file, of 120
# characters; or each file uses one static 6,243 times, or 1,000 statics 4,245 times, or has 1,785 objects that another one has with `extern`.
all=(m1 m2 m3 m4 m5 m6 m7 m8 m9 m10 m11 m12 m13 m14 m15 m16)
# large WHAT STATEMENTS: sixteen files by awk. For file i the statements write tokens as they are in it, and as they are stored for it.
large() {
    rm -f m? m1?
    awk -v seed="$(printf '%0111d' 0)" 'function both(text) { print text > ("m" i); print text > "wanted" }
        function renamed(front, name, back) { print front name back > ("m" i); print front name "__" i back > "wanted" }
        function declare(name) { print "extern int " name " ;" > ("m" i); print "int " name " ;" > "wanted" }
        function id(number) { return sprintf("n%s%08d", seed, number) }
        BEGIN { for (i = 1; i <= 16; i++) { '"$2"' } }'
    mega "${all[@]}"
    within 1000 stored "$1" "${all[@]}"
}
large 'sixteen files of 1 MiB' 'both("int a , b ;"); for (k = 0; k < 4165; k++) both("int a ;")'
large '66,640 long names' 'both("int a , b ;"); for (k = 0; k < 4165; k++) both("int " id(5000 * i + k) " ;")'
large '99,888 uses of sixteen statics' 'renamed("static int ", id(0), " ;"); both("int f ( void ) {")
    for (k = 0; k < 6243; k++) renamed("", id(0), " ;"); both("return 0x0 ;\n}")'
large '67,920 uses of 16,000 statics' 'for (k = 0; k < 1000; k++) renamed("static int ", id(k), " ;"); both("int f ( void ) {")
    for (k = 0; k < 4245; k++) renamed("", id(k * 7 % 1000), " ;"); both("return 0x0 ;\n}")'
large '28,560 externs' 'for (k = 0; k < 1785; k++) { both("int " id(2000 * i + k) " ;"); declare(id(2000 * (i % 16 + 1) + 1784 - k)) }
    both("int a , b ;")'
rm -f m? m1?

# Files: each may be 1,048,576 bytes long. All are fetched, in order, before the first is looked at. Where there is a refusal or OUT can't
# be written nothing is stored elsewhere.
printf 'int a;' > least
cp least full
mega full
{ cat full; echo; } > long
printf 'int a ;\nint a ;\n' > wanted
joins stored 'a file of 1,048,576 bytes' full least
rm o
many='least least least least least least least least least least least least least least least'
while IFS=';' read -r status line words; do
    wants "$status" "$line" join $words
    [ ! -e o ] || fail "'join $words' stored something"
done <<ROWS
2;words refused;
2;words refused;o
2;words refused;o $many least least
2;words refused;o -x least
2;words refused;o least --steps 5
2;words refused;--help
2;words refused;o least -h
2;words refused;-- o
3;read fault: absent;o absent
3;read fault: absent;o least absent
3;read fault: absent;o bad absent
3;read fault: absent;o absent long
3;read fault: absent;o $many absent
3;read fault: .;o . absent
3;read fault: .;no/o least .
9;file refused: long too long;o long
9;file refused: long too long;o least long
9;file refused: long too long;o bad long
9;file refused: long too long;o long absent
9;file refused: long too long;no/o $many long
1;source refused: file 1: bad byte at byte 0;o bad
1;source refused: file 2: bad byte at byte 0;no/o least bad
1;source refused: file 16: bad byte at byte 0;o $many bad
4;;no/o least
4;;. least least
ROWS
cp least -- -least
printf 'int a ;\nint a ;\n' > wanted
for words in 'o least least' '-- o least least' 'o -- least -least' '-- o least -least' 'o least -- least'; do
    rm -f o
    wants 0 '' join $words
    cmp -s o wanted || fail "'join $words' stored another text"
done
yes 'int a ;' | head -n 16 > wanted
joins stored 'sixteen files' $many least
# OUT may be one of the files, which are what they held at first, and a file may be there twice.
printf 'extern int n; int get(void); static int k = 2; int main(void){return get() * k + n;}' > one
printf 'static int k = 5; int n = k_; int get(void){return k;}' > two
sed -i 's/k_/3/' two
printf 'int n ;\nint get ( void ) ;\nstatic int k__1 = 2 ;\nint main ( void ) {\nreturn get ( ) * k__1 + n ;\n}\n' > wanted
printf 'static int k__2 = 5 ;\nint n = 3 ;\nint get ( void ) {\nreturn k__2 ;\n}\n' >> wanted
for out in one two; do
    cp one keep.one; cp two keep.two
    wants 0 '' join $out one two
    cmp -s $out wanted || fail "another text is stored over the file $out"
    gives 'returned 000d' none $out
    cp keep.one one; cp keep.two two
done
wants 0 '' join own own own
printf 'static int a__1 ;\nstatic int a__2 ;\n' > wanted
cmp -s own wanted || fail 'another text is stored over a file that is there twice'
wants 1 'source refused: file 1: reserved name at byte 11' join own own
cmp -s own wanted || fail 'a refused file is changed'
[ ! -w /dev/full ] || "$program" join o least > /dev/full || fail 'a full output changed a status'
wants 1 'source refused: syntax at byte 0' build undefined i

# The programs, with their files in order and the other way round, which changes nothing of what they do.
# does INPUT LINES FILE..: what the program of these files puts on the words of INPUT.
does() {
    local file back=() input=$1 lines
    lines=$(cat "$2")
    shift 2
    [ $# -ge 3 ] && [ $# -le 5 ] || fail "a program has $# files: $*"
    for file in "$@"; do back=("$file" "${back[@]}"); done
    wants 0 '' join o "$@"
    again o
    gives "$lines" "$input" o
    wants 0 '' join o "${back[@]}"
    gives "$lines" "$input" o
}
programs=0
for folder in "$top"/tests/joined/*/; do
    programs=$((programs + 1))
    does "${folder}input" "${folder}expected" "$folder"*.c
done
modem=$top/examples/files/modem
does "$modem/modem.in" "$modem/modem.out" "$modem"/{modem,transmit,receive}.c
[ "$rows" -ge 390 ] && [ "$programs" -ge 20 ] || fail "files.txt has $rows cases, and joined/ has $programs programs"
exit "$failed"
