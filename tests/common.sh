# What the scripts here begin with: a room of their own, and what a command has to put. A script sets `script` to its own name and reads this file.
set -u
top=$(cd "$(dirname "${BASH_SOURCE[0]}")/.." && pwd)
program=$top/crates/c25cc/out/c25cc
room=$(mktemp -d) || exit 1
trap 'rm -rf "$room"' EXIT
cd "$room" || exit 1
failed=0

fail() { echo "$script: $*"; failed=1; }

# wants STATUS TEXT WORD..: the status and all of the output of a command.
wants() {
    local status=$1 text=$2 got
    shift 2
    got=$("$program" "$@"; echo "status $?")
    [ "$got" = "${text:+$text
}status $status" ] || fail "'$*' gave: $got"
}

# shows TEXT: the text that printf %b reads, or nothing for the word none.
shows() { [ "$1" = none ] || printf '%b' "$1"; }

# image WORD..: the text of an image of these words, without its last line.
image() {
    echo 'C25 IMAGE 1'
    echo "words $#"
    printf '%s\n' "$*" | fold -w 40 | sed 's/ $//'
}

# handmade WORD..: the text of an image of these words, in which no function is named.
handmade() { image "$@"; echo end; }
