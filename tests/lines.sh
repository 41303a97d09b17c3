#!/usr/bin/env bash
# The built program's assembler on the texts of lines.txt, and on long ones. Expected values stand there and here; they come from docs/.
script=lines
. "$(dirname "${BASH_SOURCE[0]}")/common.sh"

# assembles: the words of the text a.asm on one line, `nothing` where there are none, or why it is refused.
assembles() {
    local words
    rm -f a.img
    words=$("$program" asm a.asm a.img)
    case $? in
        0) words=$(sed -e 1,2d -e '$d' a.img | tr '\n' ' '); words=${words% } ;;
        9) words=${words#file refused: a.asm } ;;
        *) words="a status for '$words'" ;;
    esac
    echo "${words:-nothing}"
}

# becomes WORDS WHAT: what a.asm is assembled to.
becomes() {
    local got
    got=$(assembles)
    [ "$got" = "$1" ] || fail "$2 gave: $(head -c 200 <<< "$got")"
}

while IFS= read -r row; do
    text=${row#* | }
    if [ "$text" = none ]; then : > a.asm; else printf '%b' "$text" > a.asm; fi
    becomes "${row%% | *}" "'$text'"
done < <(grep -v '^#' "$top/tests/lines.txt")

# The most words, and a label behind them, whose number is 0 again.
{ yes IDLE | head -n 65534; printf 'B end\nend:\n'; } > a.asm
becomes "$(yes ce1f | head -n 65534 | tr '\n' ' ')ff80 0000" '65,536 words'
# One more, and a fault before there are too many.
yes IDLE | head -n 65537 > a.asm
becomes 'too long 65537' '65,537 words'
echo 'LACK 256' >> a.asm
becomes 'out of range line 65538' 'too many words and a fault'
# Texts of about 4 MiB: many lines, many labels, one long line.
{ echo x:; yes 'B x' | head -n 1048575; } > a.asm
SECONDS=0
becomes 'too long 2097150' 'a million lines'
seq -f 'l%.0f: ; here' 0 240000 > a.asm
becomes nothing 'many labels'
{ printf '.word '; yes 1 | head -n 4194290 | tr -d '\n'; } > a.asm
becomes 'out of range line 1' 'one long line'
[ "$SECONDS" -le 6 ] || fail "long texts took $SECONDS seconds"

exit "$failed"
