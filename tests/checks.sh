#!/usr/bin/env bash
# The built program's certificates on real files: what `build` stores and reports with each option, and what `check` says of it, of
# certificates written by hand, and of damaged ones. Expected values come from docs/ and were worked out by hand.
script=checks
. "$(dirname "${BASH_SOURCE[0]}")/common.sh"

# builds REPORT CHECKED WORD..: a build of the source a.c with these options, its report, and what a check of what it stored says.
builds() {
    local report=$1 checked=$2
    shift 2
    wants 0 "$report" build a.c a.img "$@"
    wants 0 "$checked" check a.img a.img.crt
}

# frame REGISTERS STEP SCALARS LINES MARKS: the version 2 certificate of a function `f` with these lines.
frame() {
    printf 'C25 CERTIFICATE 2\nframe f\nregisters %s\nstep %s\nscalars %s\n%b\nmarks %s\n%s\nendframe\nend\n' \
        "$1" "$2" "$3" "$4" "${#5}" "$5"
}

: > none

# An output and a result: no scalar.
printf 'int main(void){__out(1,5); return 7;}' > a.c
builds 'main: 0 scalars, 1 registers, 0 accesses, 0 address instructions, optimal' 'main: optimal 0'
cat > wanted <<'END'
C25 CERTIFICATE 2
frame main
registers 1
step 1
scalars 0
cost 0
claim optimal
marks 1
c
endframe
end
END
cmp -s a.img.crt wanted || fail "another certificate: $(cat a.img.crt)"
cmp -s a.img "$top/examples/first.img" || fail 'another image'
cp a.img first.img
cp a.img.crt first.crt
wants 0 $'1 0005\nreturned 0007' run a.img none
printf 'C25 CERTIFICATE 2\nend\n' > empty.crt
wants 0 'main: no frame' check a.img empty.crt
sed 's/^frame main/frame nobody/' first.crt > nobody.crt
wants 8 $'nobody: not in the image\nmain: no frame' check a.img nobody.crt
{ head -n -1 first.crt; sed -n '2,$p' first.crt; } > twice.crt
wants 0 $'main: optimal 0\nmain: optimal 0' check a.img twice.crt
sed -e 's/CERTIFICATE 2/CERTIFICATE 1/' -e '/^step/d' first.crt > old.crt
wants 0 'main: optimal 0' check a.img old.crt
{ cat a.img | head -n -1; echo 'func main 000b 000b'; echo end; } | sed 's/^func main 0006 000b/func main 0006 000a/' > two.img
wants 0 $'main: optimal 0\nmain: no frame' check two.img first.crt

# Options that are none, and their words.
wants 2 'words refused' build a.c a.img -r 5
wants 2 'words refused' build a.c a.img --budget 0
wants 2 'words refused' build a.c a.img --step 9
wants 2 'words refused' check a.img
wants 2 'words refused' check a.img a.img.crt more
wants 3 'read fault: absent' check absent a.img.crt
wants 3 'read fault: absent' check a.img absent
wants 9 'file refused: a.img.crt bad line 1' check a.img.crt a.img
wants 9 'file refused: a.img bad line 1' check a.img a.img

# Two scalars, and four with moves by 1 and by 2.
printf 'int main(void){int a; int b; a = __in(0); b = a + 1; __out(1, a + b); return b;}' > a.c
builds 'main: 2 scalars, 1 registers, 6 accesses, 1 address instructions, optimal' 'main: optimal 1'
echo '0 0004' > p
wants 0 $'1 0009\nreturned 0005' run a.img p
builds 'main: 2 scalars, 2 registers, 6 accesses, 1 address instructions, optimal' 'main: optimal 1' -r 2
wants 0 $'1 0009\nreturned 0005' run a.img p
printf 'int main(void){int a; int b; int c; int d; a = __in(0); b = a; c = a; d = a; __out(1, a); return a;}' > a.c
echo '0 0007' > p
builds 'main: 4 scalars, 1 registers, 9 accesses, 3 address instructions, optimal' 'main: optimal 3'
wants 0 $'1 0007\nreturned 0007' run a.img p
builds 'main: 4 scalars, 1 registers, 9 accesses, 2 address instructions, optimal' 'main: optimal 2' --step 2
wants 0 $'1 0007\nreturned 0007' run a.img p
builds 'main: 4 scalars, 1 registers, 9 accesses, 3 address instructions, optimal' 'main: optimal 3' --step 1 --budget 1000000 -r 1

# A filter of sixteen taps, whose scalars are `s`, `acc`, `i`, `p` and two temporaries.
cat > a.c <<'END'
int h[16] = {1,2,3,4,5,6,7,8,8,7,6,5,4,3,2,1};
int x[16];
int fir(int s) {
    int acc; int i; int *p;
    for (i = 15; i > 0; i--) x[i] = x[i - 1];
    x[0] = s;
    acc = 0; p = h;
    for (i = 0; i < 16; i++) acc += x[i] * *p++;
    return acc >> 2;
}
int main(void) { for (;;) __out(1, fir(__in(0))); return 0; }
END
builds 'fir: 6 scalars, 1 registers, 25 accesses, 12 address instructions, optimal
main: 0 scalars, 1 registers, 0 accesses, 0 address instructions, optimal' $'fir: optimal 12\nmain: optimal 0'
printf '0 0008\n0 fffc\n0 0000\n' > p
wants 0 $'1 0002\n1 0003\n1 0004\ninput 0 ended' run a.img p
wants 0 $'1 0002\n1 0003\n1 0004\ninput 0 ended' exec a.c p
words=$(awk '/^words/ { print $2 }' a.img)
[ "$words" -le 170 ] || fail "the filter takes $words words"
cp a.img fir.img
cp a.img.crt fir.crt
for options in '-r 2' '-r 3' '-r 4' '--step 2' '--step 8 -r 2' '--budget 1'; do
    "$program" build a.c a.img $options > report || fail "no build with $options"
    "$program" check a.img a.img.crt > checked || fail "a frame fails with $options"
    sed -E 's/^([^:]*): .*, ([0-9]+) address instructions, (optimal|best)$/\1: \3 \2/' report | cmp -s - checked || fail "$options: $(cat report checked)"
    wants 0 $'1 0002\n1 0003\n1 0004\ninput 0 ended' run a.img p
done
"$program" build a.c a.img --budget 1 | grep -q '^fir: .* best$' || fail 'a search of one node is sure'

# Each example, with each number of registers and with steps, checked and run.
for source in "$top"/examples/*.c; do
    input=${source%.c}.in
    [ -e "$input" ] || continue
    for options in '-r 1' '-r 4' '--step 2' '-r 2 --step 3'; do
        "$program" build "$source" a.img $options > report || fail "no build of $source with $options"
        "$program" check a.img a.img.crt > checked || fail "a frame of $source fails with $options"
        sed -E 's/^([^:]*): .*, ([0-9]+) address instructions, (optimal|best)$/\1: \3 \2/' report | cmp -s - checked || fail "$source $options: $(cat report checked)"
        "$program" run a.img "$input" --steps 100000000 | cmp -s - "${source%.c}.out" || fail "$source runs otherwise with $options"
    done
done

# Chains of calls, seven deep and eight.
chain() { for ((i = $1; i > 0; i--)); do [ "$i" -eq "$1" ] && printf 'int f%d(void){return 0;}' "$i" || printf 'int f%d(void){return f%d();}' "$i" $((i + 1)); done; printf 'int main(void){return f1();}'; }
for deep in 7 8; do
    chain "$deep" > a.c
    "$program" build a.c a.img > report || fail "no chain of $deep"
    [ "$(wc -l < report)" -eq $((deep + 1)) ] || fail "the report of a chain of $deep"
done

# Frames by hand, of a function that accesses nothing: its words come before the replay, and the first test that fails decides.
{ echo 'C25 IMAGE 1'; echo 'words 1'; echo 'ce26'; echo 'func f 0000 0000'; echo end; } > f.img
frame 1 1 0 'cost 1\nclaim optimal' c > c
wants 8 'f: count 0 cost 1' check f.img c
frame 1 1 2 'block 1 0 1\nlist 0310 0 1\ncost 1\nclaim optimal' c > c
wants 8 'f: walk differs in block 0' check f.img c
{ echo 'C25 IMAGE 1'; echo 'words 1'; echo '9e00'; echo 'func f 0000 0000'; echo end; } > bad.img
frame 1 1 0 'cost 0\nclaim optimal' c > c
"$program" check bad.img c | grep -Eq '^f: (bad word|unknown address) 0000$' || fail "a bad word gave: $("$program" check bad.img c)"

# One access of a list of two registers: LRLK AR2,0310h; LARP 2; SACL *+; SACL *; RET.
{ image d200 0310 558a 60a0 6080 ce26; printf 'func f 0000 0005\nend\n'; } > f.img
# The bound of the root is 1 for the block and 1 for the neighbours, less 1 for the greatest weight of each scalar; behind a scalar it is 1.
frame 1 1 2 'block 1 0 1\nlist 0310 0 1\ncost 1\nclaim optimal' bcc > c
wants 0 'f: optimal 1' check f.img c
frame 1 1 2 'block 1 0 1\nlist 0310 0 1\ncost 1\nclaim optimal' c > c
wants 8 'f: no node 0 bound 0 cost 1' check f.img c
frame 1 2 2 'block 1 0 1\nlist 0310 0 1\ncost 1\nclaim optimal' c > c
wants 0 'f: optimal 1' check f.img c
frame 1 2 2 'block 1 0 1\nlist 0310 0 1\ncost 1\nclaim optimal' ccc > c
wants 8 'f: shape node 1' check f.img c
frame 1 1 2 'block 1 0 1\nlist 0310 0 1\ncost 1\nclaim best 0 1' c > c
wants 0 'f: best 1' check f.img c
frame 1 1 2 'block 1 0 1\nlist 0311 0 1\ncost 1\nclaim optimal' c > c
wants 8 'f: walk differs in block 0' check f.img c
frame 1 1 2 'block 1 0 1\nlist 0310 1 0\ncost 1\nclaim optimal' c > c
wants 8 'f: walk differs in block 0' check f.img c
frame 1 1 2 'block 1 0 1\nblock 1 0\nlist 0310 0 1\ncost 1\nclaim optimal' c > c
wants 8 'f: walk differs in block 1' check f.img c
frame 1 1 2 'block 2 0 1\nlist 0310 0 1\ncost 2\nclaim optimal' c > c
wants 8 'f: count 1 cost 2' check f.img c
frame 1 1 2 'block 2 0 1\nlist 0310 0 1\ncost 1\nclaim optimal' c > c
wants 8 'f: cost claimed 1 found 2' check f.img c
frame 1 1 2 'block 1 0 1\nlist 0310 0 1\ncost 1\nclaim optimal' '' | sed '/^$/d' > c
wants 8 'f: shape node 0' check f.img c
frame 1 1 2 'block 1 0 1\nlist 0310 0 1\ncost 1\nclaim optimal' b > c
wants 8 'f: shape node 1' check f.img c
frame 1 1 2 'block 1 0 1\nlist ffff 0 1\ncost 1\nclaim optimal' c > c
wants 8 'f: walk differs in block 0' check f.img c
# Three scalars: LRLK AR2,0311h; LARP 2; SACL *-; SACL *; ADRK 2; SACL *-; SACL *; RET accesses 0 1 2 0 where the list 1 0 2 lies at 0310h.
{ image d200 0311 558a 6090 6080 7e02 6090 6080 ce26; printf 'func f 0000 0008\nend\n'; } > g.img
three() { printf 'C25 CERTIFICATE %s\nframe f\nregisters 1\nscalars 3\nblock 1 0 1 2 0\nlist 0310 1 0 2\ncost %s\nclaim optimal\nmarks 4\n%s\nendframe\nend\n' "$@" > c; }
three 1 2 bccc
wants 0 'f: optimal 2' check g.img c
three 1 2 cccc
wants 8 'f: no node 0 bound 1 cost 2' check g.img c
three 1 2 bccb
wants 8 'f: shape node 4' check g.img c
three 1 1 bccc
wants 8 'f: count 2 cost 1' check g.img c
three 1 2 bcc
wants 9 'file refused: c short frame 0' check g.img c
three 3 2 bccc
wants 9 'file refused: c version 3' check g.img c
three 1 2 bccc
sed '/^marks/q' c > cut
wants 9 'file refused: cut short frame 0' check g.img cut

# A step of 2: LRLK AR0,2; LRLK AR2,0311h; LARP 2; SACL *-, *+, *+, *-, *0+, *0-, *; RET accesses 0 1 0 2 0 3 0 where the list 1 0 2 3 lies
# at 0310h. The bound of the root is that of the load alone.
{ image d000 0002 d200 0311 558a 6090 60a0 60a0 6090 60e0 60d0 6080 ce26; printf 'func f 0000 000c\nend\n'; } > g.img
frame 1 2 4 'block 1 0 1 0 2 0 3 0\nlist 0310 1 0 2 3\ncost 2\nclaim optimal' c > c
wants 8 'f: no node 0 bound 1 cost 2' check g.img c
frame 1 2 4 'block 1 0 1 0 2 0 3 0\nlist 0310 1 0 2 3\ncost 2\nclaim best 0 1' c > c
wants 0 'f: best 2' check g.img c
frame 1 2 2 'block 1 0 1\nlist 0310 0 1\ncost 1\nclaim optimal' c > c
wants 0 'f: optimal 1' check f.img c

# Files that are no certificates.
frame 1 1 2 'block 1 0 1\nlist 0310 0 1\ncost 1\nclaim optimal' cc | sed 's/^marks 2/marks 3/' > c
wants 9 'file refused: c short frame 0' check f.img c
sed 's/CERTIFICATE 2/CERTIFICATE 3/' first.crt > c
wants 9 'file refused: c version 3' check f.img c
head -c -1 first.crt > c
wants 9 'file refused: c bad line 11' check f.img c
: > c
wants 9 'file refused: c bad line 1' check f.img c
frame 1 1 2 'block 1 0 1\nlist 0310 0\ncost 1\nclaim optimal' c > c
wants 9 'file refused: c bad line 8' check f.img c

# Every damaged byte of two certificates, and 300 damaged images: a line of docs/COMMANDS.md, and 0, 8 or 9.
lines='^(file refused: x (bad line|short frame|version|too long|bad range line) ?[0-9]*|[A-Za-z_0-9]+: (no frame|not in the image|bad word [0-9a-f]{4}|unknown address [0-9a-f]{4}|walk differs in block [0-9]+|count [0-9]+ cost [0-9]+|cost claimed [0-9]+ found [0-9]+|no node [0-9]+ bound -?[0-9]+ cost [0-9]+|shape node [0-9]+|(optimal|best) [0-9]+))$'
# names_lines IMG CERT: a check of these, of which one is damaged.
names_lines() {
    local got status
    got=$("$program" check "$1" "$2")
    status=$?
    case $status in 0 | 8 | 9) ;; *) fail "status $status of a damaged file" ;; esac
    grep -Evq "$lines" <<< "$got" && fail "a damaged file gave: $got"
}
# damaged FILE PLACE BYTE: the file x, which has another byte at this place.
damaged() { { head -c "$2" "$1"; printf "\\$(printf %o "$3")"; tail -c +$(($2 + 2)) "$1"; } > x; }
for one in first fir; do
    size=$(wc -c < $one.crt)
    for ((place = 0; place < size; place++)); do
        damaged $one.crt "$place" $(((place * 7 + 33) % 256))
        names_lines $one.img x
    done
done
for ((turn = 0; turn < 300; turn++)); do
    size=$(wc -c < fir.img)
    damaged fir.img $((turn * 7919 % size)) $((48 + turn % 10))
    names_lines x fir.crt
done
exit "$failed"
