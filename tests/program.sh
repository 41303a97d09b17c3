#!/usr/bin/env bash
# The built program on real files: its examples, its statuses and lines, what it compiles, and how fast it starts.
# Expected values stand in examples/, here and in the other files of tests/; they come from docs/.
script=program
. "$(dirname "${BASH_SOURCE[0]}")/common.sh"
# What a build of a function without a scalar reports.
report='main: 0 scalars, 1 registers, 0 accesses, 0 address instructions, optimal'

# wants STATUS LINE WORD..: the status and all of the output of the first command, which builds the program where that is wanted.
wants() {
    local status=$1 line=$2 got
    shift 2
    got=$("$top/c25cc" "$@"; echo "status $?")
    [ "$got" = "${line:+$line
}status $status" ] || fail "'$*' gave: $got"
}

# builds WORD..: a build ends with 0 and puts a line for each function, and a check of what it stored says the same of each.
builds() {
    local got checked
    got=$("$program" "$@") || { fail "'$*' gave: $got"; return; }
    checked=$("$program" check "$3" "$3.crt") || fail "'check $3' gave: $checked"
    got=$(sed -E 's/^([A-Za-z_0-9]+): [0-9]+ scalars, [1-4] registers, [0-9]+ accesses, ([0-9]+) address instructions, (optimal|best)$/\1: \3 \2/' <<< "$got")
    [ "$got" = "$checked" ] || fail "'$*' reports $got, and its check says $checked"
}

# puts LINES WORD..: a command puts the lines of a file, and ends with the status that the last of them tells.
puts() {
    local lines=$1 status
    shift
    case $(tail -n 1 "$lines") in
        'returned '* | 'input '*) status=0 ;;
        'words refused') status=2 ;;
        'read fault: '*) status=3 ;;
        'running '*) status=6 ;;
        'trap '*) status=7 ;;
        'file refused: '*) status=9 ;;
        'undefined '*) status=10 ;;
        *) status=1 ;;
    esac
    "$top/c25cc" "$@" > got
    set -- $? "$@"
    [ "$1" -eq "$status" ] && cmp -s got "$lines" || fail "'${*:2}' gave: $1 $(tail -n 3 got | head -c 300), and wanted: $status $(tail -n 3 "$lines" | head -c 300)"
}

# rows FILE: its lines but for comments.
rows() { grep -v '^#' "$top/tests/$1"; }

"$top/c25cc" > /dev/null
[ $? -eq 2 ] || { fail 'the program is not there'; exit 1; }

for built in "$top"/examples/*.img; do
    builds build "${built%.img}.c" made.img
    cmp -s made.img "$built" || fail "${built%.img}.c has another image"
done

printf 'int main(void){__out(1,5); return 7;}' > a.c
builds build a.c a.img
cmp -s a.img "$top/examples/first.img" || fail 'the image of a source without a line feed'
printf 'int main(void){return 7;}' > b.c
{ image ce02 ce08 ce07 fe80 0006 ce1f ca07 ce26; printf 'func main 0006 0007\nend\n'; } > wanted.img
builds build b.c made.img
cmp -s made.img wanted.img || fail 'the image of a source without an output'
wants 2 'words refused'
wants 2 'words refused' build a.c
wants 2 'words refused' bild a.c a.img
wants 2 'words refused' build a.c a.img -r 5
wants 2 'words refused' build a.c "$(printf '\377')"
wants 3 'read fault: absent.c' build absent.c a.img
wants 3 'read fault: .' build . a.img
wants 4 '' build a.c no_folder/a.img
printf 'int main(void){return 12ab;}' > bad.c
wants 1 'source refused: bad constant at byte 22' build bad.c b.img
[ -e b.img ] && fail 'a refused source left an image'
wants 1 'source refused: bad constant at byte 22' build bad.c a.img
cmp -s a.img "$top/examples/first.img" || fail 'a refused build changed its image'

# The sources of builds.txt. Each stands beside a file that is kept; one that is refused leaves no image.
mkdir builds
cd builds || exit 1
echo kept > kept
builds=0
while IFS= read -r row; do
    builds=$((builds + 1))
    answer=${row%% | *}
    shows "${row#* | }" > a.c
    cp a.c source
    rm -f a.img
    if [[ $answer == words\ * ]]; then
        ranges=
        [[ $answer == *' func '* ]] && ranges=${answer#* func }
        set -- ${answer%% func *}
        shift
        [ -n "$ranges" ] || ranges=$(printf 'main 0006 %04x' $(($# - 1)))
        { image "$@"; printf 'func %s %s %s\n' $ranges; echo end; } > wanted.img
        builds build a.c a.img
        cmp -s a.img wanted.img || fail "another image: $row"
    else
        wants 1 "source refused: $answer" build a.c a.img
        [ -e a.img ] && fail "an image: $row"
    fi
    { cmp -s a.c source && [ "$(cat kept)" = kept ]; } || fail "another file was changed: $row"
done < <(rows builds.txt)
cd ..
[ "$builds" -ge 64 ] || fail "builds.txt has $builds sources"

# Sources as high as they may be, one higher, and parentheses, which have no limit of their own.
nested() {
    awk -v n="$1" -v front="$2" -v back="$3" 'BEGIN {
        printf "int main(void){return "
        for (i = 0; i < n; i++) printf "%s", front
        printf "1"
        for (i = 0; i < n; i++) printf "%s", back
        printf ";}"
    }' > nested.c
}
nested 195 '1-(' ')'
builds build nested.c made.img
nested 196 '1-(' ')'
wants 1 'source refused: syntax at byte 608' build nested.c b.img
nested 195 '1?(' '):1'
builds build nested.c made.img
nested 195 'f(' ')'
wants 1 'source refused: undeclared at byte 410' build nested.c b.img
nested 195 '((int)' ')'
builds build nested.c made.img
nested 99000 '(' ')'
builds build nested.c made.img
awk 'BEGIN { printf "int main(void){"; for (i = 0; i < 197; i++) printf "{"; for (i = 0; i < 198; i++) printf "}" }' > nested.c
builds build nested.c made.img

# The sources of types.txt, each with its fault. A source lies in N.c, and in N.wants is its line, or nothing where it has no fault.
mkdir sources
sources=$(LC_ALL=C awk '
    /^#/ || !/ [|] / { next }
    {
        kind = substr($0, 1, index($0, " | ") - 1)
        source = substr($0, index($0, " | ") + 3)
        if (kind !~ /^missing main/ && source !~ /main\(/) source = source " int main(void){return 0;}"
        place = index(source, "§")
        if (place) {
            source = substr(source, 1, place - 1) substr(source, place + length("§"))
            kind = kind " at byte " (place - 1)
        }
        sub(/^missing main at 0$/, "missing main at byte 0", kind)
        count++
        printf "%s", source > ("sources/" count ".c")
        print (kind == "ok" ? "" : "source refused: " kind) > ("sources/" count ".wants")
        close("sources/" count ".c")
        close("sources/" count ".wants")
    }
    END { print count + 0 }' "$top/tests/types.txt")
[ "$sources" -ge 465 ] || fail "types.txt has $sources sources"
# answers_types LINE SOURCE: builds a source without a fault, where LINE is empty, or one with this line.
answers_types() {
    local line=$1 got
    rm -f made.img made.img.crt
    [ -n "$line" ] || { builds build "$2" made.img; return; }
    got=$("$program" build "$2" made.img; echo "status $?")
    [ "$got" = "$line
status 1" ] || fail "$2 gave '$got', and wanted '$line': $(head -c 200 "$2")"
    [ -e made.img ] && fail "an image of a refused source: $(head -c 200 "$2")"
}
for source in $(seq 1 "$sources"); do
    read -r line < "sources/$source.wants"
    answers_types "$line" "sources/$source.c"
done

# Limits: the greatest number that is taken, and one more.
# repeated COUNT BETWEEN FORMAT: the format with the numbers from 1 to COUNT.
repeated() { awk -v n="$1" -v between="$2" -v form="$3" 'BEGIN { for (i = 1; i <= n; i++) printf "%s" form, (i > 1 ? between : ""), i }'; }
functions() { echo "$(repeated "$(($1 - 1))" '' 'void f%d(void){}') int main(void){return 0;}" > limit.c; }
parameters() { echo "int f($(repeated "$1" ', ' 'int p%d')){return 0;} int main(void){return 0;}" > limit.c; }
scalars() { echo "int main(void){$(repeated "$1" '' 'int s%d;')return 0;}" > limit.c; }
scalars_and_temporary() { echo "int g(int a){return a;} int main(void){$(repeated "$1" '' 'int s%d = 1;')return s1 + g(s2);}" > limit.c; }
cases() { echo "int main(void){switch (1) {$(repeated "$1" '' 'case %d:')} return 0;}" > limit.c; }
for limit in 'functions 256 functions' 'parameters 31 parameters' 'scalars 64 scalars' 'scalars_and_temporary 63 scalars' 'cases 256 cases'; do
    read -r make most name <<< "$limit"
    $make "$most"
    answers_types '' limit.c
    $make $((most + 1))
    [ "$name" = scalars ] && most=64
    answers_types "source refused: limit $name $((most + 1))" limit.c
done

# Large sources: names in one scope, and functions that call one another in a chain or in a circle.
# within MS WORD..: what the words do takes less than so many milliseconds.
within() {
    local most=$1 started took
    shift
    started=$(date +%s%N)
    "$@"
    took=$((($(date +%s%N) - started) / 1000000))
    [ "$took" -lt "$most" ] || fail "$(printf %.200s "$*") took $took ms"
}
quickly() { within 1000 answers_types "$@"; }
echo "int main(void){int $(repeated 99990 ',' 'n%d');return 0;}" > names.c
quickly 'source refused: limit scalars 99990' names.c
echo "int $(repeated 99990 ',' 'n%d');int main(void){return n99990;}" > statics.c
quickly 'source refused: data full 199996' statics.c
echo "int $(repeated 32376 ',' 'n%d');int main(void){return n32376;}" > statics.c
quickly '' statics.c
echo "int f0(void){return 0;}$(awk 'BEGIN { for (i = 1; i < 255; i++) printf "int f%d(void){return f%d();}", i, i - 1 }')int main(void){return f254();}" > chain.c
quickly '' chain.c
echo "int f255(void);int f0(void){return f255();}$(awk 'BEGIN { for (i = 1; i < 256; i++) printf "int f%d(void){return f%d();}", i, i - 1 }')int main(void){return f254();}" > circle.c
quickly "source refused: recursion f0 $(awk 'BEGIN { for (i = 255; i > 0; i--) printf "f%d ", i }')f0" circle.c

# A long way to a circle: of 12000 functions each calls the next, and only the last two reach themselves.
echo "void $(repeated 11999 ',' 'f%d(void)'),f0(void);$(awk 'BEGIN { for (i = 0; i < 12000; i++) printf "void f%d(void){f%d();}", i, i < 11999 ? i + 1 : 11998 }')int main(void){return 0;}" > way.c
quickly 'source refused: recursion f11998 f11999 f11998' way.c

head -c 1048576 /dev/zero | tr '\0' ' ' > long.c
wants 1 'source refused: syntax at byte 0' build long.c b.img
printf ' ' >> long.c
wants 9 'file refused: long.c too long' build long.c b.img
[ -e b.img ] && fail 'a refused source left an image'
# Names of 127 characters and of one more, and 200,000 tokens and one more.
awk 'BEGIN { for (i = 0; i < 127; i++) printf "m" }' > name.c
wants 1 'source refused: syntax at byte 0' build name.c b.img
printf m >> name.c
wants 1 'source refused: long name at byte 0' build name.c b.img
head -c 200000 /dev/zero | tr '\0' ';' > tokens.c
wants 1 'source refused: syntax at byte 0' build tokens.c b.img
printf ';' >> tokens.c
wants 1 'source refused: too many tokens 200001' build tokens.c b.img
wants 0 "$report" build a.c a.c
cmp -s a.c "$top/examples/first.img" || fail 'an image over its own source'

# A line of refusal that can't be put changes no status; an answer that can't be put has status 4.
if [ -w /dev/full ]; then
    "$top/c25cc" bild > /dev/full
    [ $? -eq 2 ] || fail 'a full output changed the status'
    "$top/c25cc" build long.c b.img > /dev/full
    [ $? -eq 9 ] || fail 'a full output changed the status of a long source'
    "$top/c25cc" run "$top/examples/first.img" b.c > /dev/full
    [ $? -eq 9 ] || fail 'a full output changed the status of a refused run'
fi

# Runs: images of hand-assembled words.
: > none
handmade c806 ca07 6005 e105 ce1f > seven.img
handmade c806 ca07 6000 ca64 cb0f 4700 ce1f > divide.img
handmade ce26 > pop.img
handmade c806 8000 e100 ff80 0001 > echo.img
handmade ff80 0000 > loop.img
seven='1 0007
returned 0007'
wants 0 "$seven" run seven.img none
wants 0 "$seven" run seven.img none --steps 5
wants 6 '1 0007
running after 4 steps' run seven.img none --steps 4
wants 0 'returned 000e' run divide.img none
wants 7 'trap stack-empty at 0000' run pop.img none
wants 6 'running after 1000000 steps' run loop.img none
wants 0 '1 0005
returned 0007' run "$top/examples/first.img" none
printf '0 000a\r\n0 B\n\n0   000C' > ports
wants 0 '1 000a
1 000b
1 000c
input 0 ended' run echo.img ports
printf '16 0001\n' > bad.ports
wants 9 'file refused: bad.ports bad line 1' run seven.img bad.ports
for lines in 1 2 3; do
    head -n "$lines" seven.img > cut.img
    wants 9 "file refused: cut.img bad line $((lines + 1))" run cut.img none
done
sed 's/words 5/words 65537/' seven.img > many.img
wants 9 'file refused: many.img too long 65537' run many.img none
sed 's/end/func f 0003 0002\nend/' seven.img > range.img
wants 9 'file refused: range.img bad range line 4' run range.img none
wants 3 'read fault: absent' run absent none
wants 3 'read fault: absent' run absent nowhere
wants 3 'read fault: absent' run cut.img absent
wants 2 'words refused' run seven.img
wants 2 'words refused' run seven.img none --steps 0
wants 2 'words refused' run seven.img none --steps 100000001
wants 2 'words refused' run seven.img none --help
[ -w /dev/full ] && { "$top/c25cc" run seven.img none > /dev/full; [ $? -eq 4 ] || fail 'an answer to a full output'; }

# The images of runs.txt with their ports.
runs=0
while IFS= read -r row; do
    runs=$((runs + 1))
    lines=${row%% | *}
    row=${row#* | }
    steps=()
    if [[ $row == 'steps '* ]]; then
        steps=(--steps "$(cut -d ' ' -f 2 <<< "$row")")
        row=${row#* | }
    fi
    text=${row%% | *}
    ports=none
    [[ $row == *' | '* ]] && ports=${row#* | }
    if [[ $text =~ ^[0-9a-f]{4}(\ [0-9a-f]{4})*$ ]]; then
        handmade $text > i
    else
        shows "$text" > i
    fi
    shows "$ports" > p
    printf '%s\n' "${lines//, /$'\n'}" > run.wants
    puts run.wants run i p "${steps[@]}"
done < <(rows runs.txt)
[ "$runs" -ge 82 ] || fail "runs.txt has $runs images"

# The words of words.txt, each over the files that its request names: a source that is built, an image or a source that goes on for
# ever, and no input. Nothing is left but these and what is built.
mkdir asked
cd asked || exit 1
: > ../no.file
asks() {
    local request name
    read -ra request <<< "$1"
    shift
    case ${request[0]} in
        refused)
            wants 2 'words refused' "$@"
            ;;
        build)
            cp "$top/examples/first.c" "./${request[1]}"
            wants 0 "${report/1 registers/${request[3]} registers}" "$@"
            cmp -s "./${request[2]}" "$top/examples/first.img" || fail "no image under ${request[2]}: $*"
            grep -qx "registers ${request[3]}" "./${request[2]}.crt" && grep -qx "step ${request[5]}" "./${request[2]}.crt" || fail "another certificate under ${request[2]}: $*"
            rm -f -- "./${request[1]}" "./${request[2]}" "./${request[2]}.crt"
            ;;
        run)
            cp ../loop.img "./${request[1]}"
            cp ../no.file "./${request[2]}"
            wants 6 "running after ${request[3]} steps" "$@"
            rm -f -- "./${request[1]}" "./${request[2]}"
            ;;
        means | exec)
            echo 'int main(void){for(;;); return 0;}' > "./${request[1]}"
            cp ../no.file "./${request[2]}"
            counted=turns
            [ "${request[0]}" = means ] || counted=steps
            wants 6 "running after ${request[3]} $counted" "$@"
            rm -f -- "./${request[1]}" "./${request[2]}"
            ;;
        check)
            cp "$top/examples/first.img" "./${request[1]}"
            printf 'C25 CERTIFICATE 2\nend\n' > "./${request[2]}"
            wants 0 'main: no frame' "$@"
            rm -f -- "./${request[1]}" "./${request[2]}"
            ;;
        layout)
            printf 'scalars 1\nblock 1 0\nend\n' > "./${request[1]}"
            wants 0 'cost 1 optimal
register 0: 0' "$@"
            rm -f -- "./${request[1]}"
            ;;
        asm)
            echo IDLE > "./${request[1]}"
            wants 0 '' "$@"
            { image ce1f; echo end; } | cmp -s - "./${request[2]}" || fail "no image under ${request[2]}: $*"
            rm -f -- "./${request[1]}" "./${request[2]}"
            ;;
        dis)
            handmade ce1f > "./${request[1]}"
            wants 0 IDLE "$@"
            rm -f -- "./${request[1]}"
            ;;
        gen)
            last=$(bash "$top/tests/many_functions.sh" "${request[1]}" lines | tail -n 1)
            wants 0 "gen ${request[1]}: functions $((request[1] + 1)), outputs ${request[1]}, last ${last#returned }, $last" "$@"
            ;;
        debug)
            handmade ce1f > "./${request[1]}"
            cp ../no.file "./${request[2]}"
            echo step > "./${request[3]}"
            wants 0 'returned 0000' "$@"
            rm -f -- "./${request[1]}" "./${request[2]}" "./${request[3]}"
            ;;
        pre)
            printf '#define N 7\nint a[N];' > "./${request[1]}"
            wants 0 '' "$@"
            echo 'int a [ 7 ] ;' | cmp -s - "./${request[2]}" || fail "no text under ${request[2]}: $*"
            rm -f -- "./${request[1]}" "./${request[2]}"
            ;;
        join)
            # Each source has an object of its own, so the text tells which sources were joined, in which order.
            for name in "${request[@]:2}"; do
                [ -e "./$name" ] || printf 'int s%d;\n' "$(ls -A | wc -l)" > "./$name"
            done
            for name in "${request[@]:2}"; do sed 's/;/ ;/' < "./$name"; done > ../joined.wants
            wants 0 '' "$@"
            cmp -s ../joined.wants "./${request[1]}" || fail "another text under ${request[1]}: $*"
            for name in "${request[@]:1}"; do rm -f -- "./$name"; done
            ;;
        pbuild)
            # A turn of the image's loop takes ten steps, and the third of them enters its block, which the source has too.
            handmade d200 0400 558a 6080 6080 6080 6080 6080 6080 6080 ff80 0000 | sed 's/^end$/func main 0000 000b\n&/' > "./${request[2]}"
            echo 'int main(void){int a; int b; int c; int d; b=1; a=2; b=3; a=4; c=5; a=6; d=7; return 0;}' > "./${request[1]}"
            cp ../no.file "./${request[3]}"
            set -- "$(((request[7] + 7) / 10))" "$@"
            # The first search that is sure has eight nodes for each of four pieces; without entries none is needed.
            claimed=optimal
            [ "${request[6]}" -ge 32 ] || [ "$1" -eq 0 ] || claimed=best
            wants 0 "main: 4 scalars, ${request[5]} registers, $1 entries, $((2 * $1)) weighted, $claimed" "${@:2}"
            wants 0 'returned 0000' run "./${request[4]}" ../no.file
            grep -qx "registers ${request[5]}" "./${request[4]}.prf" || fail "another text of frames under ${request[4]}.prf: ${*:2}"
            for name in "${request[@]:1:4}" "${request[4]}.prf"; do rm -f -- "./$name"; done
            ;;
        *) fail "another request: ${request[*]}" ;;
    esac
    [ -z "$(ls -A)" ] || fail "other files are left by '$*': $(ls -A)"
}
lists=0
while IFS= read -r row; do
    lists=$((lists + 1))
    line=${row%% | *}
    words=()
    [ -n "$line" ] && mapfile -t -d ' ' words < <(printf '%s' "$line")
    # No file can have an empty name.
    if [ "${row#* | }" = 'build  b 1 200000 1' ]; then
        wants 3 'read fault: ' "${words[@]}"
    else
        asks "${row#* | }" "${words[@]}"
    fi
done < <(rows words.txt)
cd ..
[ "$lists" -ge 471 ] || fail "words.txt has $lists lists"
wants 2 'words refused' ''

# Files as long as they may be, and one byte longer.
head -c 4194304 /dev/zero | tr '\0' '\n' > long.img
wants 9 'file refused: long.img bad line 1' run long.img none
echo >> long.img
wants 9 'file refused: long.img too long' run long.img none
head -c 16777216 /dev/zero | tr '\0' '\n' > long.ports
wants 0 "$seven" run seven.img long.ports
# both STATUS LINE WORD..: what the source is said to mean, and what its program puts.
both() {
    wants "$1" "$2" means "${@:3}"
    wants "$1" "$2" exec "${@:3}"
}
both 0 '1 0005
returned 0007' "$top/examples/first.c" long.ports
echo >> long.ports
wants 9 'file refused: long.ports too long' run seven.img long.ports
both 9 'file refused: long.ports too long' "$top/examples/first.c" long.ports
both 9 'file refused: long.c too long' long.c none

# What sources mean by the language alone, and what their programs do.

# The sources of means.txt: N.c with its input in N.ports, its turns in N.turns, and the lines in N.wants.
mkdir means
sources=$(LC_ALL=C awk '
    # what stands before the next bar, which is taken off
    function field(  bar, text) {
        bar = index(rest, " | ")
        text = substr(rest, 1, bar - 1)
        rest = substr(rest, bar + 3)
        return text
    }
    function keep(text, name) {
        printf "%s", text > ("means/" count "." name)
        close("means/" count "." name)
    }
    /^#/ || !/ [|] / { next }
    {
        count++
        rest = $0
        lines = field()
        ports = turns = ""
        while (rest ~ /^(in|turns) [0-9]/) {
            word = field()
            if (word ~ /^in /) ports = substr(word, 4) "\n"
            else turns = substr(word, 7)
        }
        place = index(rest, "§")
        if (place) {
            rest = substr(rest, 1, place - 1) substr(rest, place + length("§"))
            lines = lines " at byte " (place - 1)
        }
        gsub(/, /, "\n", lines)
        gsub(/, /, "\n", ports)
        keep(rest, "c")
        keep(ports, "ports")
        keep(turns (turns == "" ? "" : "\n"), "turns")
        keep(lines "\n", "wants")
    }
    END { print count + 0 }' "$top/tests/means.txt")
[ "$sources" -ge 499 ] || fail "means.txt has $sources sources"
# as_meant SOURCE PORTS LINES: the source is refused as it is said to be, or its program does what it is said to mean. Where that is
# undefined, or goes on, the outputs that it is said to put come first.
as_meant() {
    local lines last outputs got status
    lines=$(< "$3")
    last=${lines##*$'\n'}
    case $last in
        'source refused: '*) answers_types "$last" "$1"; return ;;
        'returned '* | 'input '*) got=$("$program" exec "$1" "$2") ;;
        *) got=$("$program" exec "$1" "$2" --steps 20000) ;;
    esac
    status=$?
    outputs=${lines%"$last"}
    case $last:$status:$got in
        'returned '*:0:"$lines" | 'input '*:0:"$lines") ;;
        'undefined '*:[067]:"$outputs"?* | 'running '*:[067]:"$outputs"?*) ;;
        *) fail "exec $1 gave: $status $(tail -n 3 <<< "$got" | head -c 300), and it means: $(tail -n 3 <<< "$lines" | head -c 300)" ;;
    esac
}
for source in $(seq 1 "$sources"); do
    set -- "means/$source.c" "means/$source.ports"
    turns=()
    if read -r count < "means/$source.turns"; then
        turns=(--turns "$count")
    fi
    puts "means/$source.wants" means "$@" "${turns[@]}"
    as_meant "$@" "means/$source.wants"
    # With more turns a run may end that goes on with these. A turn of a loop that ends takes two steps or more.
    if [[ $(tail -n 1 "means/$source.wants") == 'running '* ]]; then
        "$program" means "$@" --turns 1000 > more
        if [ $? -ne 6 ]; then
            as_meant "$@" more
        else
            "$program" exec "$@" --steps 2000 > more
            [ $? -eq 6 ] || fail "exec $* gave: $(tail -n 1 more)"
        fi
    fi
done

# The examples with an input, each with all the lines that it puts.
for ports in "$top"/examples/*.in; do
    example=${ports%.in}
    puts "$example.out" means "$example.c" "$ports"
    builds build "$example.c" made.img
    puts "$example.out" run made.img "$ports"
    puts "$example.out" exec "$example.c" "$ports"
done

printf 'int main(void){for(;;); return 0;}' > loop.c
wants 0 '1 0005
returned 0007' means "$top/examples/first.c" none
wants 6 'running after 3 turns' means loop.c none --turns=+03
wants 6 'running after 1000000 turns' means loop.c none --turns 1000000
wants 2 'words refused' means
wants 2 'words refused' means loop.c
wants 2 'words refused' means loop.c none --turns 0
wants 2 'words refused' means loop.c none --turns 1000001
wants 2 'words refused' means loop.c none --turns
wants 2 'words refused' means loop.c none --turns 5 --turns 5
wants 2 'words refused' means loop.c none --steps 5
wants 2 'words refused' means loop.c none none
wants 2 'words refused' means absent.c absent --turns 0
wants 3 'read fault: absent.c' means absent.c absent
wants 3 'read fault: absent' means bad.c absent
wants 9 'file refused: bad.ports bad line 1' means bad.c bad.ports
printf '\n0\n' > bad.ports
wants 9 'file refused: bad.ports bad line 2' means none bad.ports
wants 9 'file refused: long.c too long' means long.c absent
wants 1 'source refused: bad constant at byte 22' means bad.c none
wants 1 'source refused: syntax at byte 0' means none none
wants 1 'source refused: limit scalars 99990' means names.c none
[ -w /dev/full ] && { "$top/c25cc" means "$top/examples/first.c" none > /dev/full; [ $? -eq 4 ] || fail 'an answer to a full output'; }

# The statuses of exec, and the order of its refusals.
wants 6 'running after 3 steps' exec loop.c none --steps=+03
wants 6 'running after 1000000 steps' exec loop.c none
wants 0 '1 0005
returned 0007' exec "$top/examples/first.c" none --steps 11
wants 6 '1 0005
running after 10 steps' exec "$top/examples/first.c" none --steps 10
echo 'int main(void){__out(2, __in(3)); return __in(3);}' > echo.c
printf '0 0009\n3 1234\n' > echo.ports
both 0 '2 1234
input 3 ended' echo.c echo.ports
wants 2 'words refused' exec
wants 2 'words refused' exec loop.c
wants 2 'words refused' exec loop.c none --steps 0
wants 2 'words refused' exec loop.c none --steps 100000001
wants 2 'words refused' exec loop.c none --turns 5
wants 2 'words refused' exec absent.c absent --steps 0
wants 3 'read fault: absent.c' exec absent.c absent
wants 3 'read fault: absent' exec bad.c absent
wants 9 'file refused: bad.ports bad line 2' exec bad.c bad.ports
wants 9 'file refused: long.c too long' exec long.c absent
wants 1 'source refused: bad constant at byte 22' exec bad.c none
wants 1 'source refused: syntax at byte 0' exec none none
wants 1 'source refused: limit scalars 99990' exec names.c none
[ -w /dev/full ] && { "$top/c25cc" exec "$top/examples/first.c" none > /dev/full; [ $? -eq 4 ] || fail 'an answer to a full output'; }

# A read at address 0 is undefined, and there is no RAM: the run of the source and that of its image come to the same trap.
echo 'int main(void){int *p; p = 0; __out(4, 4); return *p;}' > trap.c
got=$("$program" exec trap.c none)
[ $? -eq 7 ] || fail "a trap of exec gave: $got"
builds build trap.c trap.img
wants 7 "$got" run trap.img none
case $got in
    '4 0004
trap no-ram at '????) ;;
    *) fail "a trap of exec gave: $got" ;;
esac

# As deep as sources may be: nested expressions, blocks and parentheses, and 256 functions that call one another.
nested 195 '1-(' ')'
both 0 'returned 0000' nested.c none
nested 194 '1-(' ')'
both 0 'returned 0001' nested.c none
nested 194 '1?(' '):1/0'
both 0 'returned 0001' nested.c none
nested 99000 '(' ')'
both 0 'returned 0001' nested.c none
awk 'BEGIN { printf "int main(void){"; for (i = 0; i < 196; i++) printf "{"; printf ";"; for (i = 0; i < 197; i++) printf "}" }' > nested.c
both 0 'returned 0000' nested.c none
chained() { echo "int f0(int x){$1}$(awk 'BEGIN { for (i = 1; i < 255; i++) printf "int f%d(int x){return f%d(x + 1) + 1;}", i, i - 1 }')int main(void){return f254(0);}" > chain.c; }
chained '__out(0, x); return x;'
both 0 '0 00fe
returned 01fc' chain.c none
chained 'return 1 / (x - 254);'
wants 10 'undefined divide by zero at byte 21' means chain.c none
chained '__out(0, x);'
wants 10 "0 00fe
undefined no value at byte $(grep -ob 'f0(x + 1)' chain.c | cut -d : -f 1)" means chain.c none

# high FRONT BACK COUNT: so many functions, all called at once, each within an expression or statements 190 high.
high() { echo "int f0(int x){return x;}$(awk -v front="$1" -v back="$2" -v count="$3" 'BEGIN {
    for (i = 1; i < count; i++) {
        printf "int f%d(int x){", i
        for (k = 0; k < 190; k++) printf "%s", front
        printf "return "
        for (k = 0; k < 190; k++) printf "%s", back
        printf "f%d(x);}", i - 1
    }
}')int main(void){return f$(($3 - 1))(7);}" > high.c; }
high '' '- ' 255
both 0 'returned 0007' high.c none
high 'if (1) ' '' 255
wants 0 'returned 0007' means high.c none
# three words for each test, so that not all of these have room
high 'if (1) ' '' 100
wants 0 'returned 0007' exec high.c none

# Long runs, with the time that they take.
# timed WHAT LINES WORD..: what a command does as in puts takes less than a minute.
timed() {
    local what=$1 started took
    shift
    started=$(date +%s%N)
    puts "$@"
    took=$((($(date +%s%N) - started) / 1000000))
    echo "program: $what took $took ms"
    [ "$took" -lt 60000 ] || fail "$what took $took ms"
}
echo 'int main(void){unsigned low = 0, high = 0; while (high < 15 || low < 16960) if (++low == 0) high++; __out(0, high); return low;}' > turns.c
printf '0 000f\nreturned 4240\n' > turns.wants
timed 'a loop of 1000000 turns' turns.wants means turns.c none --turns 1000000
echo 'running after 999999 turns' > turns.wants
puts turns.wants means turns.c none --turns 999999
echo 'void add(unsigned *n){unsigned one[2] = {1}; *n += one[0];} int main(void){unsigned low = 0, high = 0; for (;;) {unsigned next = low; add(&next); low = next; if (low == 0 && ++high == 4) break;} __out(0, high); return low;}' > calls.c
printf '0 0004\nreturned 0000\n' > calls.wants
timed 'a loop of 262144 calls' calls.wants means calls.c none --turns 262144
echo 'int a[32767]; int main(void){int *p; unsigned sum = 0; for (p = a; p < a + sizeof a; p++) *p = p - a; while (p != a) sum += *--p; return sum;}' > array.c
echo 'returned 4001' > array.wants
timed 'an array of 32767 cells' array.wants means array.c none --turns 32767
awk 'BEGIN { for (i = 0; i < 10000; i++) print "0 0040" }' > words
awk 'BEGIN {
    print "1 0001\n1 0005\n1 000f\n1 0020\n1 0031\n1 003b\n1 003f"
    for (i = 7; i < 10000; i++) print "1 0040"
    print "input 0 ended"
}' > words.wants
timed 'a filter over 10000 words' words.wants means "$top/examples/fir.c" words --turns 10001
timed "the filter's program over 10000 words" words.wants exec "$top/examples/fir.c" words --steps 100000000
sed -i '$ c running after 10000 turns' words.wants
puts words.wants means "$top/examples/fir.c" words

# Layouts: the sequences of layouts.txt with their least costs, and worked ones with all lines.
layouts=0
while IFS= read -r row; do
    layouts=$((layouts + 1))
    answer=${row%% | *}
    row=${row#* | }
    shows "${row#* | }" > sequence
    got=$("$program" layout sequence ${row%% | *} | head -n 1)
    [ "$got" = "$answer" ] || fail "layout gave '$got', and wanted '$answer': $row"
done < <(rows layouts.txt)
[ "$layouts" -ge 72 ] || fail "layouts.txt has $layouts sequences"
# lays_out WORDS SEQUENCE LINES
lays_out() {
    shows "$2" > sequence
    wants 0 "$3" layout sequence $1
}
lays_out '' 'scalars 4\nblock 1 1 0 1 0 2 0 3\nend\n' 'cost 2 optimal
register 0: 1 0 2 3'
lays_out '-r 2' 'scalars 5\nblock 1 0 1 0 2 0 3 0 4\nend\n' 'cost 2 optimal
register 0: 0 1
register 1: 2 3 4'
pairs() { awk -v n="$1" 'BEGIN { printf "scalars %d\\n", n; for (i = 0; i < n; i++) for (j = i + 1; j < n; j++) printf "block 1 %d %d\\n", i, j; printf "end\\n" }'; }
lays_out '' "$(pairs 8)" 'cost 49 optimal
register 0: 6 4 2 0 1 3 5 7'
lays_out '-r 4' "$(pairs 6)" 'cost 25 optimal
register 0: 4 2 0 1 3 5'
lays_out '--budget 20' "scalars 20\nblock 1$(awk 'BEGIN { for (i = 1; i < 20; i++) printf " 0 %d", i }')\nend\n" 'cost 34 best piece 0 quota 1
register 0: 1 0 2 3 4 5 6 7 8 9 10 11 12 13 14 15 16 17 18 19'
lays_out '' 'scalars 4\nblock 1 0 1 0 2 0 3 0\nend\n' 'cost 3 optimal
register 0: 1 0 2 3'
lays_out '' 'scalars 4\nstep 2\nblock 1 0 1 0 2 0 3 0\nend\n' 'cost 2 optimal
register 0: 1 0 2 3'
lays_out '' 'scalars 4\nblock 1 0 1 0 2 0 2 0 3 0 3\nend\n' 'cost 3 optimal
register 0: 2 0 3 1'
cycle='scalars 5\nblock 2 1 0\nblock 2 0 2\nblock 2 2 4\nblock 2 4 3\nblock 3 0 4\nend\n'
lays_out '' "$cycle" 'cost 14 optimal
register 0: 1 0 2 4 3'
lays_out '--budget 25' "$cycle" 'cost 15 best piece 0 quota 5
register 0: 1 0 4 2 3'
lays_out '--budget 30' "$cycle" 'cost 14 best piece 0 quota 6
register 0: 1 0 2 4 3'
lays_out '--budget 40' "$cycle" 'cost 14 best piece 1 quota 8
register 0: 1 0 2 4 3'
lays_out '' 'scalars 0\nend' 'cost 0 optimal'
printf 'scalars 65\nend\n' > sequence
wants 9 'file refused: sequence too many scalars 65' layout sequence
printf 'scalars 2\r\n\nblock 1 2\nend\n' > sequence
wants 9 'file refused: sequence bad line 3' layout sequence
printf 'scalars 2\nstep 9\nend\n' > sequence
wants 9 'file refused: sequence bad line 2' layout sequence
wants 3 'read fault: absent' layout absent

# A sequence of 64 scalars, as long as it may be, is read and searched within two seconds.
awk 'BEGIN { seed = 12345; for (line = 0; line < 200; line++) { printf "block 1"; for (access = 0; access < 100; access++) { seed = seed * 16807 % 2147483647; printf " %d", int(seed / 65536) % 64 } printf "\n" } }' > part
{ echo 'scalars 64'; for ((i = (16777216 - 20) / $(wc -c < part); i > 0; i--)); do cat part; done; echo end; } > sequence
searched() { got=$("$program" layout sequence | head -n 1); }
within 2000 searched
[[ $got =~ ^'cost '[0-9]+' ' ]] || fail "a sequence of $(wc -c < sequence) bytes gave: $got"

# Programs whose answers are by hand or by arithmetic here.

# Quotients, remainders and shifts of both kinds.
awk -f "$top/tests/edges.awk" > edges.c
puts edges.wants exec edges.c edges.ports
puts edges.wants means edges.c edges.ports

# Calls nested more deeply than the hardware stack is high, and not.
called() { echo "int f$1(void){return 0;}$(awk -v n="$1" 'BEGIN { for (i = n - 1; i > 0; i--) printf "int f%d(void){return f%d() + 1;}", i, i + 1 }')int main(void){return f1();}" > called.c; }
for row in '200 00c7' '8 0007' '7 0006' '1 0000'; do
    called "${row% *}"
    builds build called.c made.img
    wants 0 "returned ${row#* }" run made.img none
    both 0 "returned ${row#* }" called.c none
done

# Data memory: all of it, and one word more; and words that are shared by functions that are never active together.
filled() { echo "int a[32767]; int b[$1]; int main(void){return 0;}" > filled.c; }
shared() { echo "int s[$1]; int f(void){int a[32767]; return 0;} int g(void){int b[32767]; return 0;} int main(void){return f()+g();}" > shared.c; }
for fill in 'filled 31983' 'shared 31981'; do
    read -r make most <<< "$fill"
    $make "$most"
    answers_types '' "$make.c"
    both 0 'returned 0000' "$make.c" none
    $make $((most + 1))
    answers_types 'source refused: data full 64769' "$make.c"
    wants 1 'source refused: data full 64769' exec "$make.c" none
    wants 0 'returned 0000' means "$make.c" none
done
sed -i 's/^int s[^;]*; //' shared.c
answers_types '' shared.c
both 0 'returned 0000' shared.c none

# Values are kept in frame words: without the stores to them a program puts something else.
# without_stores NAME: an image whose SACL, SACH and IN through an address register, in the range of this function, are MAR.
without_stores() {
    awk -v name="$1" '
    function number(digits,  i, n) {
        for (i = 1; i <= 4; i++) n = 16 * n + index("0123456789abcdef", substr(digits, i, 1)) - 1
        return n
    }
    NR <= 2 { print; next }
    /^func/ && $2 == name { first = number($3); last = number($4) }
    /^func|^end/ { rest = rest $0 "\n"; next }
    { for (i = 1; i <= NF; i++) word[count++] = $i }
    END {
        for (i = first; i <= last; i++) {
            # these have a second word, which is no instruction
            if (word[i] ~ /^[df]/) i++
            else if (word[i] ~ /^[68].[89a-f]/) word[i] = "55" substr(word[i], 3)
        }
        for (i = 0; i < count; i++) printf "%s%s", word[i], (i % 8 == 7 || i == count - 1 ? "\n" : " ")
        printf "%s", rest
    }'
}
echo 'int main(void){int a; int b; a = __in(0); b = a + 1; __out(1, a + b); return b;}' > kept.c
echo '0 0004' > kept.ports
both 0 '1 0009
returned 0005' kept.c kept.ports
builds build kept.c kept.img
without_stores main < kept.img > changed.img
wants 0 '1 0009
returned 0005' run kept.img kept.ports
wants 0 '1 0000
returned 0000' run changed.img kept.ports

cat > filter.c <<'SOURCE'
int h[16] = {1,2,3,4,5,6,7,8,8,7,6,5,4,3,2,1};
int x[16];
int fir(int s) {
    int acc; int i; int *p;
    for (i = 15; i > 0; i--) x[i] = x[i - 1];
    x[0] = s; acc = 0; p = h;
    for (i = 0; i < 16; i++) acc += x[i] * *p++;
    return acc >> 2;
}
int main(void) { for (;;) __out(1, fir(__in(0))); return 0; }
SOURCE
printf '0 0008\n0 fffc\n0 0000\n' > filter.ports
printf '1 0002\n1 0003\n1 0004\ninput 0 ended\n' > filter.wants
builds build filter.c filter.img
puts filter.wants run filter.img filter.ports
puts filter.wants exec filter.c filter.ports
puts filter.wants means filter.c filter.ports
length=$(sed -n 's/^words //p' filter.img)
[ "$length" -le 170 ] || fail "the filter has $length words"
without_stores fir < filter.img > changed.img
"$program" run changed.img filter.ports > got
cmp -s got filter.wants && fail 'the filter does without its stores'

# Many functions, many tokens and much code, each within a time.
for count in 3 200; do
    bash "$top/tests/many_functions.sh" "$count" > many.c
    bash "$top/tests/many_functions.sh" "$count" lines > many.wants
    within 200 answers_types '' many.c
    puts many.wants exec many.c none
    puts many.wants means many.c none
    tail -n 2 many.wants >> many.ends
done
[ "$(tr '\n' ' ' < many.ends)" = '1 0069 returned 0069 1 0011 returned 0011 ' ] || fail 'the ends of many functions'
# statements COUNT TEXT: a source with so many statements of this text.
statements() { awk -v n="$1" -v text="$2" 'BEGIN { printf "int main(void){int x; x = 1; "; for (i = 0; i < n; i++) printf "%s", text; print "return x;}" }' > statements.c; }
statements 199980 ';'
within 2000 answers_types '' statements.c
wants 0 'returned 0001' exec statements.c none
statements 16000 'x=x+x+1;'
within 2000 answers_types '' statements.c
wants 0 'returned ffff' exec statements.c none
# code_full: the source is refused for its code.
code_full() {
    local got status
    rm -f made.img
    got=$("$program" "$@")
    status=$?
    [[ $got =~ ^'source refused: code full '([0-9]+)$ ]] && [ "$status" -eq 1 ] && [ "${BASH_REMATCH[1]}" -gt 65536 ] && [ ! -e made.img ] ||
        fail "for code that is full: $status $got"
}
statements 99900 'x;'
within 2000 code_full build statements.c made.img
statements 28500 '__out(0,300);'
within 2000 code_full build statements.c made.img
within 2000 code_full exec statements.c none
# All of program memory, and one word more: 6 words of the startup, LDPK in the first output, 4 words for each output of 300, 3 for
# the last one, and 2 for the return.
outputs() { awk -v n="$1" -v last="$2" 'BEGIN { printf "int main(void){"; for (i = 0; i < n; i++) printf "__out(0,300);"; print "__out(0," last "); return 0;}" }' > outputs.c; }
outputs 16381 5
{ yes '0 012c' | head -n 16381; echo '0 0005'; echo 'returned 0000'; } > outputs.wants
puts outputs.wants exec outputs.c none
outputs 16381 300
answers_types 'source refused: code full 65537' outputs.c
# data memory comes before code
sed -i '1s/^/int a[32767]; int b[31984]; /' statements.c
answers_types 'source refused: data full 64770' statements.c

# Damaged images, images of any words and any bytes end with a status that a run has, whatever the input.
answers() {
    timeout 20 "$top/c25cc" run "$1" ports --steps 20000 > /dev/null
    case $? in
        0 | 6 | 7 | 9) ;;
        *) fail "a run of $1, kept as $(cp "$1" /tmp/c25cc.failed && echo /tmp/c25cc.failed)" ;;
    esac
}
size=$(wc -c < "$top/examples/first.img")
for at in $(seq 0 "$size"); do
    head -c "$at" "$top/examples/first.img" > damaged
    answers damaged
    { head -c "$at" "$top/examples/first.img"; printf '?'; tail -c +$((at + 2)) "$top/examples/first.img"; } > damaged
    answers damaged
done
for seed in $(seq 1 60); do
    awk -v seed="$seed" 'BEGIN {
        srand(seed)
        print "C25 IMAGE 1\nwords 64"
        for (i = 0; i < 64; i++) printf "%04x%s", (i == 0 ? 51206 : int(rand() * 65536)), (i % 8 == 7 ? "\n" : " ")
        print "end"
    }' > random
    answers random
    awk -v seed="$seed" 'BEGIN { srand(seed); for (i = 0; i < 300; i++) printf "%c", int(rand() * 128) }' > random
    answers random
done

started=$(date +%s%N)
"$top/c25cc" > /dev/null
took=$((($(date +%s%N) - started) / 1000000))
[ "$took" -lt 1000 ] || fail "a start took $took ms"

[ "$failed" -eq 0 ] && echo 'program: all passed'
exit "$failed"
