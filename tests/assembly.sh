#!/usr/bin/env bash
# The built program's assembler, its listings and its generated programs on real files. Expected values come from docs/ and were worked
# out by hand, or by the other programs here.
script=assembly
. "$(dirname "${BASH_SOURCE[0]}")/common.sh"

# refuses WHY TEXT: the text a.asm, with the escapes of printf %b, is refused so, and the image that was there stays.
refuses() {
    printf '%b' "$2" > a.asm
    echo kept > kept.img
    wants 9 "file refused: a.asm $1" asm a.asm kept.img
    [ "$(cat kept.img)" = kept ] || fail "a refused text changed its image: $2"
}

# returns IMG: an image is listed, and its listing is assembled to the same words.
returns() {
    rm -f back.img
    "$program" dis "$1" > listing || fail "dis $1"
    wants 0 '' asm listing back.img
    grep -v '^func ' "$1" | cmp -s - back.img || fail "$1 is listed and assembled to other words"
}

: > none

# A text by hand, the image to which it is assembled, and its listing, which is the text again.
cat > seven.asm <<'END'
LDPK 0x006
LACK 0x07
SACL 0x05,0
OUT 0x05,PA1
IDLE
END
cat > seven.wants <<'END'
C25 IMAGE 1
words 5
c806 ca07 6005 e105 ce1f
end
END
wants 0 '' asm seven.asm seven.img
cmp -s seven.img seven.wants || fail "another image: $(cat seven.img)"
wants 0 "$(cat seven.asm)" dis seven.img
wants 0 '1 0007
returned 0007' run seven.img none

# The same with a jump to the last word, a label, comments, blanks and other spellings.
printf '; puts 7\r\n\tldpk 6 ; page\n lack 0x7 \nsacl 5,0\n\nOut 0x5,PA1\nB end\nend:\nidle' > free.asm
wants 0 '' asm free.asm free.img
printf 'C25 IMAGE 1\nwords 7\nc806 ca07 6005 e105 ff80 0006 ce1f\nend\n' | cmp -s - free.img || fail "another image: $(cat free.img)"

# A text of nothing, and one over itself.
wants 0 '' asm none nothing.img
printf 'C25 IMAGE 1\nwords 0\nend\n' | cmp -s - nothing.img || fail "another image of nothing: $(cat nothing.img)"
wants 0 '' dis nothing.img
cp seven.asm own
wants 0 '' asm own own
cmp -s own seven.wants || fail 'an image over its own text'

# Refusals.
refuses 'unknown label line 1' 'B nowhere\n'
refuses 'bad line 2' 'IDLE\nIDEL\n'
refuses 'label twice line 3' 'a:\nIDLE\na:\n'
refuses 'out of range line 1' 'LACK 256\n'
refuses 'bad line 1' 'IN *,PA16\n'
yes '.word 0' | head -n 65537 > words.asm
wants 9 'file refused: words.asm too long 65537' asm words.asm words.img
[ -e words.img ] && fail 'a refused text left an image'
head -n 65536 words.asm > full.asm
wants 0 '' asm full.asm full.img
head -n 2 full.img | tail -n 1 | grep -qx 'words 65536' || fail 'an image of all program memory'
returns full.img
wants 3 'read fault: absent' asm absent b.img
wants 3 'read fault: absent' dis absent
wants 3 'read fault: .' dis .
wants 4 '' asm seven.asm no_folder/b.img
head -n 3 seven.img > cut.img
wants 9 'file refused: cut.img bad line 4' dis cut.img
sed 's/words 5/words 65537/' seven.img > many.img
wants 9 'file refused: many.img too long 65537' dis many.img
head -c 4194304 /dev/zero | tr '\0' '\n' > long.asm
wants 0 '' asm long.asm long.img
cmp -s long.img nothing.img || fail 'an image of blank lines'
wants 9 'file refused: long.asm bad line 1' dis long.asm
echo >> long.asm
wants 9 'file refused: long.asm too long' asm long.asm b.img
wants 9 'file refused: long.asm too long' dis long.asm
if [ -w /dev/full ]; then
    for words in 'dis seven.img' 'gen 3'; do
        "$program" $words > /dev/full
        [ $? -eq 4 ] || fail "$words to a full output"
    done
    "$program" asm seven.asm b.img > /dev/full || fail 'asm puts something'
fi

# The examples.
examples=0
for example in "$top"/examples/*.img; do
    examples=$((examples + 1))
    returns "$example"
done
for source in "$top"/examples/*.c; do
    examples=$((examples + 1))
    "$program" build "$source" made.img > report || fail "build $source"
    returns made.img
done
[ "$examples" -ge 12 ] || fail "there are $examples examples"

# Every word as the first of an instruction: each stands before the word 0000, which is the second word of an instruction of two, and
# else an instruction of one. 34391 of them begin an instruction (docs/MACHINE.md, "Instructions"), 419 of these one of two words:
# 125 prefixes before 128 direct and 45 indirect operands, MAR with these 45, 12288 words that hold their constant, 59 before a word
# that is a constant, 14 without an operand, and 8 branches with 45 operands before the word that they lead to.
pairs() { # FROM TO
    awk -v from="$1" -v to="$2" 'BEGIN {
        print "C25 IMAGE 1"
        print "words 65536"
        for (word = from; word < to; word++)
            printf "%04x 0000%s", word, word % 4 == 3 ? "\n" : " "
        print "end"
    }' > pairs.img
}
lines=0
data=0
for half in 0 32768; do
    pairs "$half" $((half + 32768))
    returns pairs.img
    lines=$((lines + $(wc -l < listing)))
    data=$((data + $(grep -c '^\.word ' listing)))
done
[ "$lines" -eq $((2 * 65536 - 419)) ] || fail "all words are listed in $lines lines"
[ "$data" -eq $((65536 - 34391)) ] || fail "$data words are listed as numbers"

# A first word of an instruction of two words that stands last.
printf 'C25 IMAGE 1\nwords 1\nff80\nend\n' > last.img
wants 0 '.word 0xff80' dis last.img
returns last.img

# Generated programs, with the words that another program gives by the rules of the language.
for number in $(seq 1 200); do
    last=$(bash "$top/tests/many_functions.sh" "$number" lines | tail -n 1)
    wants 0 "gen $number: functions $((number + 1)), outputs $number, last ${last#returned }, $last" gen "$number"
done
wants 0 'gen 3: functions 4, outputs 3, last 0069, returned 0069' gen 3
wants 0 'gen 200: functions 201, outputs 200, last 0011, returned 0011' gen 200
wants 2 'words refused' gen 201

# The quickest of ten takes less than a fifth of a second.
least=1000000
for run in {1..10}; do
    started=$(date +%s%N)
    "$program" gen 200 > line
    took=$((($(date +%s%N) - started) / 1000000))
    [ "$took" -lt "$least" ] && least=$took
done
echo "assembly: gen 200 took $least ms"
[ "$least" -lt 200 ] || fail "gen 200 took $least ms"

[ "$failed" -eq 0 ] && echo 'assembly: all as wanted'
exit "$failed"
