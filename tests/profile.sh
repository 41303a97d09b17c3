#!/usr/bin/env bash
# The built program's layouts for recorded runs: worked programs with all that is put and stored, each way in which an image isn't of its
# source, images by hand, refusals and their order, files that can't be read or written, the options at both ends, long runs with their
# times, and the programs in examples/. Expected values are from docs/ by hand and by profile.py, which shares nothing with the compiler.
script=profile
. "$(dirname "${BASH_SOURCE[0]}")/common.sh"
: > none
command -v python3 > /dev/null || { fail 'python3 is not there'; exit 1; }

second() { python3 "$top/tests/profile.py" "$@"; }
# builds LINES SOURCE IMG OPTION..: a build puts these lines.
builds() { wants 0 "$1" build "${@:2}"; }
# profiles LINES SOURCE IMG0 PORTS IMG OPTION..: a build for a recorded run puts these lines, and stores two files alone.
profiles() {
    local before
    before=$({ ls -A; echo "$5"; echo "$5.prf"; } | sort -u)
    wants 0 "$1" pbuild "${@:2}"
    [ "$(ls -A | sort)" = "$before" ] || fail "'pbuild ${*:2}' left other files: $(ls -A | tr '\n' ' ')"
}
# refused STATUS LINE SOURCE IMG0 PORTS IMG OPTION..: nothing is stored then; what was there is as it was.
refused() {
    local before
    before=$(find . -type f ! -name 'long*' | sort | xargs -d '\n' cksum)
    wants "$1" "$2" pbuild "${@:3}"
    [ "$(find . -type f ! -name 'long*' | sort | xargs -d '\n' cksum)" = "$before" ] || fail "a refused 'pbuild ${*:3}' changed a file"
}
# other SOURCE IMG0: the image isn't one of the source.
other() { refused 9 "file refused: $2 other source" "$1" "$2" none o; }
# frames NAME LINE..: what is stored under NAME.prf, without its first line and its last one.
frames() {
    { echo 'C25 CERTIFICATE 2'; printf '%s\n' "${@:2}"; echo end; } | cmp -s - "$1.prf" || fail "under $1.prf is: $(tr '\n' ';' < "$1.prf")"
}
# judged SOURCE IMG0 PORTS STEPS REGISTERS BUDGET IMG: what is put and stored is what profile.py says, with nothing beside. The log of
# each frame fits as `check` has it, over an image that accesses what the frame says.
judged() {
    local said
    rm -f "$7" "$7.prf"
    "$program" pbuild "$1" "$2" "$3" "$7" -r "$5" --budget "$6" --steps "$4" > lines || fail "'pbuild $*' gave: $(cat lines)"
    said=$(second judge "$2" "$2.crt" "$3" "$4" "$5" "$6" "$7" lines 2>&1) || fail "'pbuild $*': $said"
    second bare "$7.prf" > bare.img
    said=$(sed -E 's/^([^:]*): .*, ([0-9]+) weighted, (optimal|best)$/\1: \3 \2/' lines)
    wants 0 "$said" check bare.img "$7.prf"
}

# Three turns of a loop, with one register and with two.
echo 'int main(void){__out(1,5); return 7;}' > first.c
echo 'int main(void){int i; int s; s = 0; for (i = 0; i < 3; i++) s = s + i; return s;}' > turns.c
builds 'main: 0 scalars, 1 registers, 0 accesses, 0 address instructions, optimal' first.c a.img
builds 'main: 2 scalars, 1 registers, 9 accesses, 5 address instructions, optimal' turns.c turns.img
other turns.c a.img
other first.c turns.img
profiles 'main: 2 scalars, 1 registers, 12 entries, 12 weighted, optimal' turns.c turns.img none o
turns=('scalars 2' 'block 1 1 0' 'block 4 0' 'block 3 1 0 1' 'block 3 0 0' 'block 1 1' 'list 0310 0 1' 'cost 12' 'claim optimal')
frames o 'frame main' 'registers 1' 'step 1' "${turns[@]}" 'marks 3' bcc endframe
wants 0 'returned 0003' run o none
# Each block was entered, so the walk is that of the frame, but each one counts once there.
wants 8 'main: count 5 cost 12' check o o.prf
for registers in 2 3 4; do
    profiles "main: 2 scalars, $registers registers, 12 entries, 12 weighted, optimal" turns.c turns.img none o -r $registers
    frames o 'frame main' "registers $registers" 'step 1' "${turns[@]}" 'marks 1' c endframe
    wants 0 'returned 0003' run o none
done
profiles 'main: 0 scalars, 1 registers, 0 entries, 0 weighted, optimal' first.c a.img none o
empty=('cost 0' 'claim optimal' 'marks 1' c endframe)
frames o 'frame main' 'registers 1' 'step 1' 'scalars 0' "${empty[@]}"
cmp -s o a.img || fail 'another image where there is no scalar'

# Layouts that weights decide. The words of an array count the turns, so that they aren't among the accesses.
loop() { echo "for (n[0] = 0; n[0] < $1; n[0]++) {$2}"; }
echo "int main(void){int a; int b; int c; int n[1]; a = 1; b = 2; $(loop 5 'b = 3; c = 4;') a = 5; c = 6; return 0;}" > three.c
builds 'main: 3 scalars, 1 registers, 6 accesses, 4 address instructions, optimal' three.c three.img
grep -qx 'list 0310 1 0 2' three.img.crt || fail 'another layout where each block counts once'
three='main: 3 scalars, 1 registers, 7 entries, 8 weighted'
profiles "$three, optimal" three.c three.img none o
three_blocks=('scalars 3' 'block 1 0 1' 'block 5 1 2' 'block 1 0 2' 'list 0310 0 1 2' 'cost 8')
frames o 'frame main' 'registers 1' 'step 1' "${three_blocks[@]}" 'claim optimal' 'marks 6' bbcccc endframe
wants 0 'returned 0000' run o none
profiles "$three, best" three.c three.img none o --budget 5
frames o 'frame main' 'registers 1' 'step 1' "${three_blocks[@]}" 'claim best 0 1' 'marks 1' b endframe
profiles "${three/1 reg/2 reg}, optimal" three.c three.img none o -r 2
frames o 'frame main' 'registers 2' 'step 1' "${three_blocks[@]}" 'claim optimal' 'marks 27' bbbccbccbccbbccbcccbbccbccc endframe
sed 's/< 5/< 1/' three.c > once.c
builds 'main: 3 scalars, 1 registers, 6 accesses, 4 address instructions, optimal' once.c once.img
profiles 'main: 3 scalars, 1 registers, 3 entries, 4 weighted, optimal' once.c once.img none o
cmp -s o once.img && cmp -s o.prf once.img.crt || fail 'each block is entered once, and something else is built'
wants 0 'main: optimal 4' check o o.prf

echo "int main(void){int a; int b; int c; int d; int e; int n[1]; $(loop 2 'b = 1; a = 2;')$(loop 2 'a = 3; c = 4;')$(loop 2 'c = 5; e = 6;')" > five.c
echo "$(loop 2 'e = 7; d = 8;')$(loop 3 'a = 9; e = 10;') return 0;}" >> five.c
builds 'main: 5 scalars, 1 registers, 10 accesses, 6 address instructions, optimal' five.c five.img
# five COST CLAIM LIST MARKS OPTION..
five() {
    profiles "main: 5 scalars, 1 registers, 11 entries, $1 weighted, ${2%% *}" five.c five.img none o "${@:5}"
    mapfile -t marks < <(fold -w 64 <<< "$4")
    frames o 'frame main' 'registers 1' 'step 1' 'scalars 5' 'block 2 1 0' 'block 2 0 2' 'block 2 2 4' 'block 2 4 3' 'block 3 0 4' \
        "list 0310 $3" "cost $1" "claim $2" "marks ${#4}" "${marks[@]}" endframe
    wants 0 'returned 0000' run o none
}
five 14 optimal '1 0 2 4 3' bbbccccccbbbcbccbcccccbbbccccbcccbcccbccbccbcbcccbcccbbcccbbccbcccc
five 15 'best 0 5' '1 0 4 2 3' bbccc --budget 25
five 14 'best 0 6' '1 0 2 4 3' bbcccc --budget 30
five 14 'best 1 8' '1 0 2 4 3' bbbcbccb --budget 40
five 15 'best 0 1' '1 0 4 2 3' b --budget 1

# One block: the report of `build` and its certificate are those of a run that goes through it once, or comes to a trap or to the end of
# the input in it. Before it a run enters nothing.
echo 'int main(void){int a; int b; a = __in(0); b = a + 1; __out(1, a + b); return b;}' > sum.c
echo '0 0004' > four
builds 'main: 2 scalars, 1 registers, 6 accesses, 1 address instructions, optimal' sum.c sum.img
profiles 'main: 2 scalars, 1 registers, 1 entries, 1 weighted, optimal' sum.c sum.img four o
frames o 'frame main' 'registers 1' 'step 1' 'scalars 2' 'block 1 0 0 1 0 1 1' 'list 0310 0 1' 'cost 1' 'claim optimal' 'marks 3' bcc endframe
cmp -s o sum.img && cmp -s o.prf sum.img.crt || fail 'one block, and something else is built'
wants 0 $'1 0009\nreturned 0005' run o four
wants 0 'main: optimal 1' check o o.prf
profiles 'main: 2 scalars, 1 registers, 0 entries, 0 weighted, optimal' sum.c sum.img four o --steps 1
frames o 'frame main' 'registers 1' 'step 1' 'scalars 2' 'list 0310 0 1' "${empty[@]}"
wants 0 $'1 0009\nreturned 0005' run o four
echo 'int main(void){int x; int *p; p = 0; x = 3; __out(4, 4); x = *p; return x;}' > trap.c
"$program" build trap.c trap.img > report
profiles 'main: 2 scalars, 1 registers, 1 entries, 1 weighted, optimal' trap.c trap.img none o
cmp -s o trap.img && cmp -s o.prf trap.img.crt || fail 'a run to a trap, and something else is built'
echo 'int main(void){int x; x = 3; for (;;) {x = x + __in(0); __out(1, x);}}' > echo.c
"$program" build echo.c echo.img > report
printf '0 1\n0 2\n0 3\n' > words
# The block of the loop is entered before the word is asked for, since x comes first in it.
for row in 'none 2' 'four 3' 'words 5'; do
    profiles "main: 2 scalars, 1 registers, ${row#* } entries, ${row#* } weighted, optimal" echo.c echo.img ${row% *} o
    "$program" run echo.img ${row% *} > wanted
    wants 0 "$(cat wanted)" run o ${row% *}
done

# Blocks that aren't entered are left out, and their scalars are laid out all the same.
echo 'int main(void){int a; int b; a = __in(0); if (a) b = a; else b = 3; return b;}' > parts.c
builds 'main: 2 scalars, 1 registers, 6 accesses, 4 address instructions, optimal' parts.c parts.img
echo '0 0' > zero
profiles 'main: 2 scalars, 1 registers, 3 entries, 3 weighted, optimal' parts.c parts.img zero o
frames o 'frame main' 'registers 1' 'step 1' 'scalars 2' 'block 1 0 0' 'block 1 1' 'block 1 1' 'list 0310 0 1' 'cost 3' 'claim optimal' \
    'marks 1' c endframe
profiles 'main: 2 scalars, 1 registers, 3 entries, 3 weighted, optimal' parts.c parts.img four o
frames o 'frame main' 'registers 1' 'step 1' 'scalars 2' 'block 1 0 0' 'block 1 0 1' 'block 1 1' 'list 0310 0 1' 'cost 3' 'claim optimal' \
    'marks 3' bcc endframe
for ports in four zero; do wants 0 "returned 000$([ $ports = four ] && echo 4 || echo 3)" run o $ports; done

# Functions that are never entered, and the frames of those that call them.
echo 'int f(int a){int b; b = a; return b;} int main(void){if (__in(0)) f(1); return 0;}' > calls.c
printf '%s\n' 'f: 2 scalars, 1 registers, 3 accesses, 1 address instructions, optimal' \
    'main: 0 scalars, 1 registers, 0 accesses, 0 address instructions, optimal' > report
builds "$(cat report)" calls.c calls.img
main='main: 0 scalars, 1 registers, 0 entries, 0 weighted, optimal'
main_frame=('frame main' 'registers 1' 'step 1' 'scalars 0' "${empty[@]}")
for ports in none zero; do
    profiles "f: 2 scalars, 1 registers, 0 entries, 0 weighted, optimal"$'\n'"$main" calls.c calls.img $ports o
    frames o 'frame f' 'registers 1' 'step 1' 'scalars 2' 'list 0311 0 1' "${empty[@]}" "${main_frame[@]}"
    wants 0 'returned 0000' run o four
done
profiles "f: 2 scalars, 1 registers, 1 entries, 1 weighted, optimal"$'\n'"$main" calls.c calls.img four o
frames o 'frame f' 'registers 1' 'step 1' 'scalars 2' 'block 1 0 1 1' 'list 0311 0 1' 'cost 1' 'claim optimal' 'marks 3' bcc endframe "${main_frame[@]}"

# The image isn't one of the source: its functions have other names, or are more, fewer or in another order, or a walk of one has a fault,
# or other lengths of its blocks.
echo 'int f(int a){int b; b = a + 1; return b;} int main(void){int x; x = f(2); return x;}' > f.c
"$program" build f.c f.img > report
# unlike SOURCE: neither the image of f.c is one of this source, nor the other way round.
unlike() {
    echo "$1" > g.c
    rm -f g.img
    "$program" build g.c g.img > report || fail "no build of $1"
    other g.c f.img
    other f.c g.img
}
f='int f(int a){int b; b = a + 1; return b;}'
main='int main(void){int x; x = f(2); return x;}'
g='void g(void){}'
for name in F f1 f_ g; do unlike "${f/f(/$name(} ${main/f(/$name(}"; done
for source in "$g $f $main" "$f $g $main" "$f $main $g" 'int main(void){int x; x = 2; return x;}' "int f(int a); $main $f"; do unlike "$source"; done
# One access more or less in a block of f or of main, and one block more.
for body in 'b = a + 1; b = 1; return b;' 'b = 1; return b;' 'b = a + a; return b;' 'b = a + 1; return 1;' 'b = a + 1; if (1) return b;' \
    'b = a; if (b) return b;' 'if (1) b = a; return b;' 'b = a / 2; return b;'; do
    unlike "int f(int a){int b; $body} $main"
done
unlike "$f ${main/return x/x = x + 1; return x}"
unlike "$f ${main/return x/return 0}"
unlike "$f ${main/x = f(2); return x/f(2); return 0}"
# As many blocks, and as many accesses in all, but not in each block.
echo "int f(int a){int b; b = a / 2; return b;} $main" > g.c
echo "int f(int a){int b; if (1) b = a; return b;} $main" > h.c
for source in g h; do "$program" build $source.c $source.img > report || fail "no build of $source.c"; done
other g.c h.img
other h.c g.img
# What is done with the accesses doesn't matter, and neither do objects that aren't among them, nor functions without a body.
# alike RETURNED SOURCE: the image of f.c does for this source as its own does.
alike() {
    echo "$2" > g.c
    "$program" build g.c g.img > report || fail "no build of $2"
    for first in g.img f.img; do
        profiles $'f: 2 scalars, 1 registers, 1 entries, 1 weighted, optimal\nmain: 1 scalars, 1 registers, 1 entries, 1 weighted, optimal' g.c $first none o
        cp o $first.new
        cp o.prf $first.new.prf
        wants 0 "returned $1" run o none
    done
    cmp -s f.img.new g.img.new && cmp -s f.img.new.prf g.img.new.prf || fail "another image with that of another source: $2"
}
alike 0003 "$f $main"
alike 0001 "${f/+/-} $main"
alike 0002 "${f/return b/return a} $main"
alike 0008 "$f ${main/2/7}"
alike 0003 "int g(void); int k[9] = {1}; $f ${main/x;/x; int n[3];}"

# Images by hand, of a source with one block of one access, and of one where it has two.
echo 'int main(void){int a; a = 5; return 0;}' > one.c
echo 'int main(void){int a; a = 5; a = 6; return 0;}' > two.c
# named FIRST LAST WORD..: an image with the range of main.
named() { image "${@:3}"; echo "func main $1 $2"; echo end; }
# entries COUNT FIRST LAST WORD..: so often the block of main is entered. The options, the ports and the source are those of the call.
options=() ports=none source=one.c accesses=0
entries() {
    local line="main: 1 scalars, 1 registers, $1 entries, $1 weighted, optimal"
    named "${@:2}" > hand.img
    profiles "$line" $source hand.img $ports o "${options[@]}"
    if [ "$1" -eq 0 ]; then
        frames o 'frame main' 'registers 1' 'step 1' 'scalars 1' 'list 0310 0' "${empty[@]}"
    else
        frames o 'frame main' 'registers 1' 'step 1' 'scalars 1' "block $1 $accesses" 'list 0310 0' "cost $1" 'claim optimal' 'marks 1' c endframe
    fi
    wants 0 'returned 0000' run o none
}
entries 1 0000 0004 d200 0400 558a 60a0 ce1f
entries 1 0000 0004 d500 ffff 558d 6080 ce1f
# Words outside of the range don't matter. A run may end or trap in front of the block, or never come to it.
entries 1 0000 0004 d200 0400 558a 60a0 ce1f ce00 ffff
entries 0 0001 0005 ce1f d200 0400 558a 60a0 ce1f
entries 0 0001 0005 ce00 d200 0400 558a 60a0 ce1f
entries 0 0002 0006 ff80 0000 d200 0400 558a 60a0 ce1f
entries 0 0002 0006 c806 8000 d200 0400 558a 60a0 ce1f
entries 0 0002 0006 ff80 0006 d200 0400 558a 60a0 ce1f
# A jump from outside of the range to the access makes no cut. It traps there, since nothing has loaded the register.
entries 1 0003 0007 c806 ff80 0006 d200 0400 558a 6080 ce1f
# The data that a run begins with is 0, so a jump on that is taken.
entries 1 0005 0009 c806 2010 f680 0005 ce1f d200 0400 558a 6080 ce1f
# A block is entered where its first access is done, no matter what happens behind it, and not where something happens in front of it.
entries 0 0000 0005 d200 0400 558a 2000 60a0 ce1f
source=two.c accesses='0 0'
entries 1 0000 0006 d200 0400 558a 60a0 2000 6080 ce1f
entries 0 0002 0007 ff80 0006 d200 0400 558a 60a0 6080 ce1f
source=one.c accesses=0
# An access that traps, or ends the run, counts too.
entries 1 0000 0004 d200 0100 558a 2080 ce1f
entries 1 0000 0004 d200 0400 558a 8380 ce1f
echo '3 7' > three.words
ports=three.words
entries 1 0000 0004 d200 0400 558a 8380 ce1f
ports=none
# A loop of four steps, in which the access is the third.
for row in '1 0' '2 0' '3 1' '4 1' '6 1' '7 2' '8 2' '1000 250' '1000000 250000' '100000000 25000000'; do
    options=(--steps ${row% *})
    entries ${row#* } 0000 0005 d200 0400 558a 6080 ff80 0000
done
options=()
entries 250000 0000 0005 d200 0400 558a 6080 ff80 0000
# A repeat of four times, by a jump into the second word in front of the access: each time counts.
repeated=(0005 000b d200 0400 558a ff80 0009 d200 0400 558a d001 cb03 0080 ce1f)
entries 4 "${repeated[@]}"
for row in '4 0' '5 1' '6 2' '7 3' '8 4' '9 4'; do
    options=(--steps ${row% *})
    entries ${row#* } "${repeated[@]}"
done
options=()
# Faults of the walk: a bad word, a second word outside, registers that aren't known; and other numbers and lengths of blocks.
unfit() {
    named "$@" > hand.img
    other one.c hand.img
}
unfit 0000 0005 d200 0400 558a 60a0 ce1f ce00
unfit 0000 0005 d200 0400 558a 60a0 ce1f d001
unfit 0000 0005 d200 0400 558a 60a0 ce1f d001 0000
unfit 0000 0001 60a0 ce1f
unfit 0000 0002 558a 6080 ce1f
unfit 0000 0003 d200 0400 6080 ce1f
unfit 0000 0006 d200 0400 558a ff80 0005 6080 ce1f
unfit 0000 0005 d200 0400 558a 60a0 6080 ce1f
unfit 0000 0009 d200 0400 558a 60a0 ce1f d200 0400 558a 60a0 ce1f
unfit 0000 0000 ce1f
unfit 0000 0004 d600 0400 558e 60a0 ce1f
{ image d200 0400 558a 60a0 ce1f ce26; echo 'func main 0000 0004'; echo 'func f 0005 0005'; echo end; } > hand.img
other one.c hand.img
{ image ce26 d200 0400 558a 60a0 ce1f; echo 'func f 0000 0000'; echo 'func main 0001 0005'; echo end; } > hand.img
other one.c hand.img
{ image d200 0400 558a 60a0 ce1f; echo 'func mein 0000 0004'; echo end; } > hand.img
other one.c hand.img
printf 'LRLK AR2,0x0400\nMAR *,AR2\nSACL *,0\nIDLE\n' > text
wants 0 '' asm text hand.img
other one.c hand.img
printf 'C25 IMAGE 1\nwords 0\nend\n' > hand.img
other one.c hand.img
other first.c hand.img

# Refusals in their order: words; SRC, IMG0 and PORTS, each with its limit; the formats of IMG0 and PORTS; tokens, syntax, types, the image
# of another source, data memory, code; stores; the put.
printf 'int main(void){return 12ab;}' > lex.c
printf 'int main(void){return 1}' > syntax.c
printf 'int main(void){return y;}' > types.c
printf 'int a[32767]; int b[31984]; int main(void){return 0;}' > data.c
awk 'BEGIN { printf "int main(void){"; for (i = 0; i < 16382; i++) printf "__out(0,300);"; print "return 0;}" }' > code.c
{ printf 'int a[32767]; int b[31984]; '; cat code.c; } > both.c
head -n 3 turns.img > bad.img
sed 's/^end$/func z 0000 0001\nend/' turns.img > range.img
sed 's/^words .*/words 65537/' turns.img > many.img
printf '0 1\n16 1\n' > bad.ports
head -c 1048576 /dev/zero | tr '\0' ' ' > long.c
cp long.c longest.c
echo >> long.c
head -c 4194304 /dev/zero | tr '\0' '\n' > long.img
cp long.img longest.img
echo >> long.img
{ cat long.img; cat long.img long.img; head -c 4194301 long.img; } > longest.ports
{ cat longest.ports; echo; } > long.ports
[ "$(wc -c < longest.ports) $(wc -c < long.ports)" = '16777216 16777217' ] || fail 'the ports have another length'
rm -f o o.prf
left=$(ls -A)
while IFS=';' read -r status line words; do
    wants "$status" "$line" pbuild $words
    [ "$(ls -A)" = "$left" ] || { fail "'pbuild $words' stored something"; left=$(ls -A); }
done <<'ROWS'
2;words refused;
2;words refused;absent
2;words refused;absent absent
2;words refused;turns.c turns.img none
2;words refused;turns.c turns.img none o o
2;words refused;turns.c turns.img none o -r 0
2;words refused;turns.c turns.img none o -r 5
2;words refused;turns.c turns.img none o -r
2;words refused;turns.c turns.img none o -r 1 -r 1
2;words refused;turns.c turns.img none o --budget 0
2;words refused;turns.c turns.img none o --budget 1000001
2;words refused;turns.c turns.img none o --steps 0
2;words refused;turns.c turns.img none o --steps 100000001
2;words refused;turns.c turns.img none o --steps 18446744073709551616
2;words refused;turns.c turns.img none o --steps=-1
2;words refused;turns.c turns.img none o --step 1
2;words refused;turns.c turns.img none o --step 2
2;words refused;turns.c turns.img none o --turns 5
2;words refused;turns.c turns.img none o --help
2;words refused;absent absent absent no/o --step 1
3;read fault: absent;absent turns.img none o
3;read fault: absent;turns.c absent none o
3;read fault: absent;turns.c turns.img absent o
3;read fault: absent;absent also.absent absent.too o
3;read fault: absent;turns.c absent absent.too o
3;read fault: .;. turns.img none o
3;read fault: .;turns.c . none o
3;read fault: .;turns.c turns.img . o
3;read fault: absent;absent long.img long.ports no/o
3;read fault: absent;lex.c absent bad.ports o
3;read fault: absent;lex.c bad.img absent o
3;read fault: absent;turns.c a.img absent o
3;read fault: absent;turns.c absent long.ports no/o
9;file refused: long.c too long;long.c turns.img none o
9;file refused: long.c too long;long.c absent none o
9;file refused: long.c too long;long.c long.img long.ports no/o
9;file refused: long.img too long;turns.c long.img none o
9;file refused: long.img too long;lex.c long.img absent o
9;file refused: long.img too long;turns.c long.img long.ports o
9;file refused: long.ports too long;turns.c turns.img long.ports o
9;file refused: long.ports too long;lex.c bad.img long.ports o
9;file refused: longest.img bad line 1;turns.c longest.img none o
9;file refused: bad.img bad line 4;turns.c bad.img none o
9;file refused: bad.img bad line 4;turns.c bad.img bad.ports no/o
9;file refused: bad.img bad line 4;lex.c bad.img none o
9;file refused: many.img too long 65537;lex.c many.img bad.ports o
9;file refused: none bad line 1;turns.c none none o
9;file refused: bad.ports bad line 2;turns.c turns.img bad.ports o
9;file refused: bad.ports bad line 2;turns.c a.img bad.ports no/o
9;file refused: bad.ports bad line 2;lex.c turns.img bad.ports o
9;file refused: turns.c bad line 1;turns.c turns.c none o
9;file refused: turns.c bad line 1;turns.c turns.img turns.c o
9;file refused: turns.img bad line 1;turns.c turns.img turns.img o
1;source refused: bad constant at byte 22;lex.c turns.img none no/o
1;source refused: bad constant at byte 22;lex.c a.img none o
1;source refused: syntax at byte 23;syntax.c a.img none o
1;source refused: undeclared at byte 22;types.c turns.img none no/o
1;source refused: syntax at byte 0;longest.c a.img none o
1;source refused: syntax at byte 0;none a.img none o
9;file refused: turns.img other source;data.c turns.img none no/o
9;file refused: turns.img other source;code.c turns.img none o
9;file refused: a.img other source;turns.c a.img none no/o
9;file refused: turns.img other source;first.c turns.img none .
1;source refused: data full 64769;data.c a.img none o
1;source refused: data full 64769;data.c a.img none no/o
1;source refused: code full 65537;code.c a.img none no/o
1;source refused: data full 64769;both.c a.img none o
4;;turns.c turns.img none no/o
4;;turns.c turns.img none .
ROWS
grep -q '^func z' range.img && wants 9 "file refused: range.img bad range line $(grep -n '^func z' range.img | cut -d : -f 1)" pbuild turns.c range.img none o
line='main: 2 scalars, 1 registers, 12 entries, 12 weighted, optimal'
profiles "$line" turns.c turns.img none wanted
profiles "$line" turns.c turns.img longest.ports o
cmp -s o wanted && cmp -s o.prf wanted.prf || fail 'another image with many blank lines'
rm -f long* o o.prf

# Where IMG.prf can't be written IMG is whole. An answer that can't be put leaves both files, and a line that refuses changes no status.
mkdir o.prf
wants 4 '' pbuild turns.c turns.img none o
cmp -s o wanted || fail 'another image where its frames have no place'
rmdir o.prf
rm o
if [ -w /dev/full ]; then
    "$program" pbuild turns.c turns.img none o > /dev/full
    [ $? -eq 4 ] && cmp -s o wanted && cmp -s o.prf wanted.prf || fail 'an answer to a full output'
    "$program" pbuild turns.c a.img none p > /dev/full
    [ $? -eq 9 ] && [ ! -e p ] || fail 'a refusal to a full output'
fi
# Files that are there twice, or are written over: each is what it held at first. No certificate of `build` is touched.
echo kept > o.crt
profiles "$line" turns.c turns.img none o
[ "$(cat o.crt)" = kept ] || fail 'a certificate is changed'
# over SRC IMG0 PORTS IMG: copies of the files under these names, and what is stored over them.
over() {
    local file first
    cp turns.c "$1"; cp turns.img "$2"; cp none "$3"
    wants 0 "$line" pbuild "$@"
    cmp -s "$4" wanted && cmp -s "$4.prf" wanted.prf || fail "'pbuild $*' stored something else"
    while read -r file first; do
        [ "$file" = "$4" ] || [ "$file" = "$4.prf" ] || cmp -s "$file" $first || fail "'pbuild $*' changed $file"
    done <<< "$1 turns.c"$'\n'"$2 turns.img"$'\n'"$3 none"
    rm -f "$1" "$2" "$3" "$4" "$4.prf"
}
over x y z x
over x y z y
over x y z z
over x.prf y z x
over x y.prf z y
over x y z.prf z
over x y x.prf x
over x x.prf z x
mkdir folder
over folder/x folder/y folder/z folder/o
rmdir folder
cp turns.img x
cp turns.img.crt x.crt
wants 0 "$line" pbuild turns.c x none x
cmp -s x.crt turns.img.crt || fail 'the certificate of IMG0 is changed'
for words in '-- turns.c turns.img none o' 'turns.c turns.img none o --' '-r1 turns.c --steps=1000000 turns.img --budget 200000 none o' \
    '--steps +01000 turns.c turns.img -r=1 none -- o' '--budget=1000000 turns.c turns.img none o --steps 100000000' \
    'turns.c turns.img none o -r 1 --budget 1000000'; do
    rm -f o o.prf
    wants 0 "$line" pbuild $words
    cmp -s o wanted && cmp -s o.prf wanted.prf || fail "'pbuild $words' stored something else"
done
cp turns.c -- -turns.c
wants 0 "$line" pbuild -- -turns.c turns.img none -o
cmp -s -- -o wanted && cmp -s -- -o.prf wanted.prf || fail 'names that begin with - stored something else'
rm -f o o.prf o.crt

# Each number of steps up to the end of a run, with the outputs of which nothing is put.
for ((steps = 1; steps < 90; steps++)); do
    judged turns.c turns.img none $steps 1 200000 o
    wants 0 'returned 0003' run o none
    [ $steps -ne 40 ] || ! grep -q ' 0 entries\| 12 entries' lines || fail 'forty steps enter none or all'
done

# IMG0 may be built with any options, or for another recorded run: where the run ends its blocks are entered as often.
for options in '-r 2' '-r 4' '--step 2' '--step 8 -r 3' '--budget 1'; do
    "$program" build five.c x $options > report || fail "no build with $options"
    profiles 'main: 5 scalars, 1 registers, 11 entries, 14 weighted, optimal' five.c x none o
    [ "$options" != '-r 2' ] || { cp o five.o; cp o.prf five.o.prf; }
    cmp -s o five.o && cmp -s o.prf five.o.prf || fail "another image for that of a build with $options"
done
profiles 'main: 5 scalars, 1 registers, 11 entries, 14 weighted, optimal' five.c five.o none o
cmp -s o five.o && cmp -s o.prf five.o.prf || fail 'another image for that of a recorded run'

# The simulator of profile.py on the images of runs.txt.
rows=0
while IFS= read -r row; do
    IFS='|' read -r lines steps text ports <<< "$row"
    [[ $steps == *steps* ]] || { ports=$text; text=$steps; steps=' steps 1000000 '; }
    text=${text# } text=${text% }
    if [[ $text =~ ^[0-9a-f]{4}(\ [0-9a-f]{4})*$ ]]; then handmade $text > hand.img; else continue; fi
    shows "${ports# }" > p
    rows=$((rows + 1))
    got=$(second run hand.img p ${steps/steps/})
    lines=${lines% }
    [ "$got" = "${lines//, /$'\n'}" ] || fail "profile.py puts $got: $row"
done < <(grep -v '^#\|^file refused' "$top/tests/runs.txt")
[ "$rows" -ge 19 ] || fail "runs.txt has $rows runs"
ports=none

# The examples, with their inputs: a run of the new image puts the same, also by profile.py, and what is put and stored is what that says.
examples=0
# profiled SOURCE PORTS LINES: the source of an example.
profiled() {
    local row registers budget steps
    examples=$((examples + 1))
    "$program" build "$1" x > report || { fail "no build of $1"; return; }
    wants 0 "$(cat "$3")" run x "$2"
    for row in '1 200000 1000000' '1 7 1000000' '2 3000 1000000' '3 1000 1000000' '4 300 1000000' '1 200000 777' '2 1000 3000'; do
        read -r registers budget steps <<< "$row"
        judged "$1" x "$2" "$steps" "$registers" "$budget" y
        wants 0 "$(cat "$3")" run y "$2"
        [ "$row" != '1 200000 1000000' ] || { cp y keep; cp y.prf keep.prf; cp lines keep.lines; }
    done
    [ "$(second run keep "$2" 1000000)" = "$(cat "$3")" ] || fail "profile.py runs $1 otherwise"
    "$program" build "$1" x -r 3 --step 2 > report
    for first in x keep; do
        profiles "$(cat keep.lines)" "$1" $first "$2" z
        cmp -s z keep && cmp -s z.prf keep.prf || fail "another image of $1 with $first"
    done
}
for source in "$top"/examples/*.c; do
    example=${source%.c}
    if [ -e "$example.in" ]; then
        profiled "$source" "$example.in" "$example.out"
    else
        "$program" exec "$source" none > wanted
        profiled "$source" none wanted
    fi
done
"$program" pre "$top/examples/macros/meter.c" meter.c
profiled meter.c "$top"/examples/macros/meter.{in,out}
modem=$top/examples/files/modem
"$program" join modem.c "$modem"/{modem,transmit,receive}.c
profiled modem.c "$modem"/modem.{in,out}
filter=$top/examples/profile/filter
profiled "$filter".{c,in,out}
# By the table of accesses in docs/TRANSLATION.md, and how often each loop is gone through for 28 samples.
{ printf '%s\n' 'C25 CERTIFICATE 2' 'frame main' 'registers 1' 'step 1' 'scalars 7' 'block 1 0 2' 'block 17 2' 'block 16 2' 'block 8 2' 'block 8 2' \
    'block 16 4 2 4 0 4 0' 'block 16 2 2' 'block 1 1 2' 'block 17 2' 'block 16 2 0' 'block 16 4 2 4 1 4 1' 'block 16 2 2' 'block 1 2' 'block 9 1' \
    'block 8 2 1 1' 'block 8 2 2' 'block 1 3' 'block 29 3 5 5 0 2' 'block 476 2' 'block 448 0 5 2 6 3 6 5 0 3 3' 'block 448 2 2' 'block 28 0 3 3' \
    'list 0332 1 4 2 5 0 3 6' 'cost 2632' 'claim optimal' 'marks 545'; } > wanted
sed '/^marks/q' keep.prf | cmp -s - wanted || fail "the frame of the example is: $(sed '/^marks/q' keep.prf)"
builds 'main: 7 scalars, 1 registers, 56 accesses, 32 address instructions, optimal' "$filter.c" x
profiles 'main: 7 scalars, 1 registers, 1604 entries, 2632 weighted, optimal' "$filter.c" x "$filter.in" o
profiles 'main: 7 scalars, 2 registers, 1604 entries, 2151 weighted, optimal' "$filter.c" x "$filter.in" o -r 2
wants 0 "$(cat "$filter.out")" means "$filter.c" "$filter.in"
wants 0 "$(cat "$filter.out")" exec "$filter.c" "$filter.in"
[ "$examples" -ge 15 ] || fail "there are $examples examples"

# Many functions and much code, each within a time; and long runs, which take about as long as `run` does.
# within MS WORD..: what the words do takes less than so many milliseconds.
within() {
    local started=$(date +%s%N)
    "${@:2}"
    took=$((($(date +%s%N) - started) / 1000000))
    [ "$took" -lt "$1" ] || fail "$(printf %.200s "${*:2}") took $took ms"
}
bash "$top/tests/many_functions.sh" 200 > many.c
"$program" build many.c many.img > report
judged many.c many.img none 1000000 1 200000 o
within 1000 profiles "$(cat lines)" many.c many.img none o
judged many.c many.img none 1000000 2 1000 o
wants 0 "$(bash "$top/tests/many_functions.sh" 200 lines)" run o none
awk 'BEGIN { printf "int main(void){int x; x = 1; "; for (i = 0; i < 16000; i++) printf "x=x+x+1;"; print "return x;}" }' > much.c
"$program" build much.c much.img > report
within 3000 profiles 'main: 1 scalars, 1 registers, 1 entries, 1 weighted, optimal' much.c much.img none o
wants 0 'returned ffff' run o none
runs() { "$program" run long.img none --steps 100000000 > got; }
# long LINE SOURCE: for a run of as many steps as there may be.
long() {
    local ran
    echo "$2" > long.c
    "$program" build long.c long.img > report || fail "no build of $2"
    within 60000 runs
    ran=$took
    within $((ran * 3 / 2 + 1000)) profiles "$1" long.c long.img none o --steps 100000000
    echo "profile: a run of $(tail -n 1 got) took $ran ms, and $took ms to be recorded"
}
long 'main: 3 scalars, 1 registers, 13504003 entries, 13504003 weighted, optimal' \
    'int main(void){unsigned i, j, k; k = 0; for (i = 0; i < 1000; i++) for (j = 0; j < 4500; j++) k++; return k;}'
[ "$(cat got)" = 'returned aa20' ] || fail "a long run gave: $(cat got)"
frames o 'frame main' 'registers 1' 'step 1' 'scalars 3' 'block 1 2 0' 'block 1001 0' 'block 1000 1' 'block 4501000 1' 'block 4500000 2 2' \
    'block 4500000 1 1' 'block 1000 0 0' 'block 1 2' 'list 0310 0 2 1' 'cost 13504003' 'claim optimal' 'marks 6' bcbccc endframe
wants 0 'returned aa20' run o none --steps 100000000
# What an image isn't run for is refused at once.
"$program" build first.c first.img > report
named 0000 0005 d200 0400 558a 6080 ff80 0000 > hand.img
within 1000 refused 1 'source refused: bad constant at byte 22' lex.c hand.img none p --steps 100000000
within 1000 refused 9 'file refused: hand.img other source' first.c hand.img none p --steps 100000000
long 'main: 0 scalars, 1 registers, 0 entries, 0 weighted, optimal' 'int main(void){for (;;);}'
[ "$(cat got)" = 'running after 100000000 steps' ] || fail "a loop gave: $(cat got)"

# Costs that have more than 32 bits: of each 336 steps of the image 256 repeat the first of 76 accesses, so often is the block entered.
{ printf 'int main(void){int s0'; for i in {1..19}; do printf ', s%d' $i; done; printf ';'; for i in {1..19} {1..19}; do printf 's0=1;s%d=1;' $i; done
    echo 'return 0;}'; } > star.c
named 0005 0057 d200 0400 558a ff80 0009 d200 0400 558a d001 cbff $(yes 0080 | head -n 76) ff80 0000 > star.img
for row in '10000 7676' '100000000 76190476'; do
    read -r steps count <<< "$row"
    [ "$count" -eq $((steps / 336 * 256 + (steps % 336 > 260 ? 256 : steps % 336 > 4 ? steps % 336 - 4 : 0))) ] || fail "another count for $steps steps"
    within 20000 profiles "main: 20 scalars, 1 registers, $count entries, $((68 * count)) weighted, best" star.c star.img none o --budget 20 --steps $steps
    sed '/^list/,$d' o.prf | tail -n 1 | grep -qx "block $count $(for i in {1..19} {1..19}; do printf '%s' "0 $i "; done | sed 's/ $//')" || fail 'another block'
    sed -n '/^list/,$p' o.prf | cmp -s - <(printf '%s\n' 'list 0310 1 0 2 3 4 5 6 7 8 9 10 11 12 13 14 15 16 17 18 19' "cost $((68 * count))" \
        'claim best 0 1' 'marks 1' b endframe end) || fail "another layout: $(sed -n '/^list/,$p' o.prf)"
done

[ "$failed" -eq 0 ] && echo 'profile: all passed'
exit "$failed"
