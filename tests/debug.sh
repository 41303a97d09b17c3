#!/usr/bin/env bash
# The built program's debugger: the sessions of debugs.txt, scripts as long as they may be and longer, files that can't be read, and how
# long 100,000,000 steps take. Expected values stand there and here; they come from docs/ and were worked out by hand.
script=debug
. "$(dirname "${BASH_SOURCE[0]}")/common.sh"

# puts WHAT: the session of i, p and s puts the lines of the file `wanted`, with status 0.
puts() {
    "$program" debug i p s > got
    set -- $? "$1"
    [ "$1" -eq 0 ] && cmp -s got wanted || fail "$2 gave: status $1 and $(wc -l < got) lines, the last $(tail -n 1 got | head -c 200)"
}

# feeds COUNT: so many line feeds.
feeds() { head -c "$1" /dev/zero | tr '\0' '\n'; }

sessions=0
while IFS= read -r row; do
    sessions=$((sessions + 1))
    lines=${row%% | *}
    rest=${row#* | }
    image=${rest%% | *}
    rest=${rest#* | }
    if [[ $image =~ ^[0-9a-f]{4}(\ [0-9a-f]{4})*$ ]]; then handmade $image; else shows "$image"; fi > i
    shows "${rest%% | *}" > p
    shows "${rest#* | }" > s
    case $lines in
        nothing) wanted='status 0' ;;
        'file refused: '*) wanted=$lines$'\n''status 9' ;;
        *) wanted=${lines//, /$'\n'}$'\n''status 0' ;;
    esac
    got=$("$program" debug i p s; echo "status $?")
    [ "$got" = "$wanted" ] || fail "'$row' gave: $got"
done < <(grep -v '^#' "$top/tests/debugs.txt")
[ "$(echo *)" = 'i p s' ] || fail "other files are left: $(echo *)"

# 1,000 commands, also with blank lines between them and without the last line feed, and more. A faulty line comes before too many, also
# where it stands behind them.
handmade ff80 0000 > i
: > p
yes step | head -n 1000 > s
seq -f 'stopped 0000 after %.0f steps' 1000 > wanted
puts '1,000 commands'
{ yes step | head -n 999 | sed 's/$/\r\n/'; printf '\n\nstep'; } > s
puts '1,000 commands and blank lines'
{ yes step | head -n 1000; printf '\r\n\n'; } > s
puts '1,000 commands before blank lines'
# refuses WHY: the script s is refused so.
refuses() { wants 9 "file refused: s $1" debug i p s; }
yes step | head -n 1001 > s
refuses 'too long 1001'
{ yes step | head -n 1000; printf '\n\r\n\nregs'; } > s
refuses 'too long 1001'
{ yes 'break 0003' | head -n 1000; echo 'delete 0003'; } > s
refuses 'too long 1001'
yes stack | head -n 10922 > s
refuses 'too long 10922'
{ yes step | head -n 1001; echo 'go 0'; } > s
refuses 'bad line 1002'
{ yes step | head -n 1001; printf 'step\r'; } > s
refuses 'bad line 1002'
{ yes step | head -n 5000; printf '\n\nx\nstep\n'; } > s
refuses 'bad line 5003'
{ yes step | head -n 1000; echo 'mem 0000 257'; } > s
refuses 'bad line 1001'
{ echo 'mem 0000 0'; yes step | head -n 1001; } > s
refuses 'bad line 1'

# 65,536 bytes and one more. The limit in bytes comes before a faulty line and before too many commands.
echo 'stopped 0000 after 1 steps' > wanted
{ echo step; feeds 65531; } > s
puts 'a command in 65,536 bytes'
echo >> s
refuses 'too long'
{ feeds 65532; printf step; } > s
puts 'a command at the end of 65,536 bytes'
printf x >> s
refuses 'too long'
yes $'\r' | head -n 32768 > s
wants 0 '' debug i p s
printf '\r' >> s
refuses 'too long'
{ feeds 65535; printf x; } > s
refuses 'bad line 65536'
head -c 65536 /dev/zero > s
refuses 'bad line 1'
printf '\0' >> s
refuses 'too long'
{ printf x; feeds 65536; } > s
refuses 'too long'
{ yes step | head -n 13107; echo; } > s
refuses 'too long 13107'
{ yes step | head -n 13107; printf '\n\n'; } > s
refuses 'too long'

# 998 breakpoints, none of which is met; 500 that are met on the way through program memory, whose words behind LDPK 6 are ADD 0,0; and
# 300 of which each second one is deleted, which is gone through once and a little.
{ seq 998 | awk '{ printf "break %04x\n", $1 }'; echo 'go 100000'; echo step; } > s
printf 'stopped 0000 after %s steps\n' 100000 100001 > wanted
puts '998 breakpoints'
handmade c806 > i
{ seq 499 -1 0 | awk '{ printf "break %04x\n", 131 * $1 }'; yes 'go 100000' | head -n 500; } > s
{ seq 499 | awk '{ printf "stopped %04x after %d steps\n", 131 * $1, 131 * $1 }'; echo 'stopped 0000 after 65536 steps'; } > wanted
puts '500 breakpoints'
{
    seq 300 | awk '{ printf "break %04x\n", 131 * $1 }'
    seq 2 2 300 | awk '{ printf "delete %04x\n", 131 * $1 }'
    yes 'go 100000' | head -n 151
} > s
{ seq 1 2 299 | awk '{ printf "stopped %04x after %d steps\n", 131 * $1, 131 * $1 }'; echo 'stopped 0083 after 65667 steps'; } > wanted
puts '300 breakpoints and 150 deletes'

# The most words of data memory, of which ffff holds 7, and 50,000 outputs.
handmade c9ff ca07 607f ce1f > i
printf 'go 9\nmem ff80 256\nmem 0000 256\nmem ff00 256\n' > s
awk 'BEGIN {
    print "returned 0007"
    for (i = 65408; i < 65408 + 256; i++) printf "%04x %04x\n", i % 65536, i == 65535 ? 7 : 0
    for (i = 0; i < 256; i++) printf "%04x 0000\n", i
    for (i = 65280; i < 65536; i++) printf "%04x %04x\n", i, i == 65535 ? 7 : 0
}' > wanted
puts '256 words'
handmade c806 e100 ff80 0001 > i
echo 'go 100000' > s
{ yes '1 0000' | head -n 50000; echo 'stopped 0002 after 100000 steps'; } > wanted
puts '50,000 outputs'
printf 'go 99999\nstep\n' > s
{ yes '1 0000' | head -n 49999; printf '%s\n' 'stopped 0001 after 99999 steps' '1 0000' 'stopped 0002 after 100000 steps'; } > wanted
puts '50,000 outputs in two parts'

# Words that are refused, names behind `--`, and one name for several files.
handmade ce1f > i
echo step > s
cp s ./-s
: > none
wants 2 'words refused' debug
wants 2 'words refused' debug i
wants 2 'words refused' debug i p
wants 2 'words refused' debug i p s s
wants 2 'words refused' debug i p s --steps 5
wants 2 'words refused' debug i p s -r 1
wants 2 'words refused' debug i p s --help
wants 2 'words refused' debug --help
wants 2 'words refused' debug -x p s
wants 2 'words refused' debug i p -s
wants 2 'words refused' debug i p -- s s
wants 2 'words refused' debug absent absent
wants 2 'words refused' Debug i p s
wants 2 'words refused' debugs i p s
wants 0 'returned 0000' debug i p s
wants 0 'returned 0000' debug -- i p s
wants 0 'returned 0000' debug i p -- -s
wants 0 '' debug i none none
wants 9 'file refused: i bad line 1' debug i i s
wants 9 'file refused: i bad line 1' debug i p i
echo 'go 0' > d
wants 9 'file refused: d bad line 1' debug i p d

# Files that can't be read, and files that are too long: all three are fetched, in the order of the words, before one is read. `x` is no
# image, no port file and no script.
echo x > x
wants 3 'read fault: absent' debug absent p s
wants 3 'read fault: absent' debug i absent s
wants 3 'read fault: absent' debug i p absent
wants 3 'read fault: absent' debug absent nowhere nothing
wants 3 'read fault: nowhere' debug i nowhere nothing
wants 3 'read fault: .' debug . p s
wants 3 'read fault: .' debug i . s
wants 3 'read fault: .' debug i p .
wants 3 'read fault: ' debug '' p s
wants 3 'read fault: absent' debug x absent s
wants 3 'read fault: absent' debug x p absent
wants 3 'read fault: absent' debug i x absent
wants 3 'read fault: absent' debug x x absent
wants 9 'file refused: x bad line 1' debug x d d
wants 9 'file refused: x bad line 1' debug i x d
wants 9 'file refused: x bad line 1' debug i p x
feeds 65537 > long.s
wants 9 'file refused: long.s too long' debug i p long.s
wants 9 'file refused: long.s too long' debug x p long.s
wants 9 'file refused: long.s too long' debug i x long.s
wants 3 'read fault: absent' debug absent p long.s
wants 3 'read fault: absent' debug i absent long.s
feeds 4194304 > long.img
wants 9 'file refused: long.img bad line 1' debug long.img p s
wants 9 'file refused: long.s too long' debug long.img p long.s
echo >> long.img
wants 9 'file refused: long.img too long' debug long.img p s
wants 9 'file refused: long.img too long' debug long.img absent absent
wants 9 'file refused: long.img too long' debug long.img p long.s
feeds 16777216 > long.ports
wants 0 'returned 0000' debug i long.ports s
echo >> long.ports
wants 9 'file refused: long.ports too long' debug i long.ports s
wants 9 'file refused: long.ports too long' debug x long.ports absent
wants 9 'file refused: long.ports too long' debug i long.ports long.s
rm long.s long.img long.ports

# An answer that can't be put has status 4; a line of refusal that can't be put changes no status, and an empty script puts nothing.
# into_full STATUS WORD..: the status of a command whose output is full.
into_full() {
    local status
    "$program" "${@:2}" > /dev/full
    status=$?
    [ "$status" -eq "$1" ] || fail "'${*:2}' to a full output ended with $status"
}
if [ -w /dev/full ]; then
    into_full 4 debug i p s
    into_full 9 debug i p d
    into_full 3 debug i p absent
    into_full 2 debug i p
    into_full 0 debug i p none
fi

# 100,000,000 steps of B 0000 in 1,000 commands take less than 20 seconds.
handmade ff80 0000 > i
yes 'go 100000' | head -n 1000 > s
seq -f 'stopped 0000 after %.0f steps' 100000 100000 100000000 > wanted
[ "$(tail -n 1 wanted)" = 'stopped 0000 after 100000000 steps' ] || fail 'seq counts otherwise'
started=$(date +%s%N)
puts '1,000 times 100,000 steps'
took=$((($(date +%s%N) - started) / 1000000))
echo "debug: 100,000,000 steps took $took ms"
[ "$took" -lt 20000 ] || fail "100,000,000 steps took $took ms"

[ "$sessions" -ge 319 ] || fail "debugs.txt has $sessions sessions"
exit "$failed"
