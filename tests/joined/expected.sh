#!/usr/bin/env bash
# How the files `expected` here and examples/files/modem/modem.out were made: avr-gcc, whose int has 16 bits as ours, compiles each file of
# a program alone and links them, and the simulator simavr runs them on the words of the file `input`. So they come from another compiler,
# another linker and another machine. No program here uses `char`, `sizeof` of a type, or what C leaves undefined.
# `expected.sh [FOLDER..]` makes them anew, here for Debian's packages gcc-avr, avr-libc and simavr.
set -eu
here=$(cd "$(dirname "${BASH_SOURCE[0]}")" && pwd)
room=$(mktemp -d)
trap 'rm -rf "$room"' EXIT

cat > "$room/ports.h" <<'END'
int __in(int port);
void __out(int port, unsigned value);
END
cat > "$room/ports.c" <<'END'
#include <avr/interrupt.h>
#include <avr/io.h>
#include <avr/pgmspace.h>
#include <avr/sleep.h>
#include "words.h"
static unsigned at[16];
static void put(char c) { while (!(UCSR0A & (1 << UDRE0))) ; UDR0 = c; }
static void text(const char *s) { while (*s) put(*s++); }
static void decimal(int n) { if (n > 9) put('0' + n / 10); put('0' + n % 10); }
static void hex(unsigned w) { int i; for (i = 12; i >= 0; i -= 4) put("0123456789abcdef"[w >> i & 15]); put('\n'); }
static void stop(void) { while (!(UCSR0A & (1 << TXC0))) ; cli(); sleep_enable(); for (;;) sleep_cpu(); }
int __in(int port)
{
    while (at[port] < COUNT && pgm_read_byte(&ports[at[port]]) != port) at[port]++;
    if (at[port] >= COUNT) { text("input "); decimal(port); text(" ended\n"); stop(); }
    return pgm_read_word(&words[at[port]++]);
}
void __out(int port, unsigned value) { decimal(port); put(' '); hex(value); }
int program(void);
int main(void)
{
    unsigned word;
    UCSR0B = 1 << TXEN0;
    UBRR0 = 0;
    word = program();
    text("returned ");
    hex(word);
    stop();
}
END

# runs INPUT FILE..: what the program of these files puts on the words of INPUT.
runs() {
    local input=$1 file objects=() flags='-mmcu=atmega1284p -O1 -fwrapv -fno-strict-aliasing -fno-builtin -Wall'
    shift
    awk '{ count++; ports = ports $1 ","; words = words "0x" $2 "," }
        END { print "#define COUNT " count; print "static const unsigned char ports[] PROGMEM = {" ports "};"
            print "static const unsigned words[] PROGMEM = {" words "};" }' "$input" > "$room/words.h"
    for file in "$@"; do
        objects+=("$room/${#objects[@]}.o")
        avr-gcc $flags -include "$room/ports.h" -Dmain=program -c "$file" -o "${objects[-1]}"
    done
    avr-gcc $flags "$room/ports.c" "${objects[@]}" -o "$room/program.elf"
    simavr -m atmega1284p -f 16000000 "$room/program.elf" 2>&1 | sed 's/\x1b\[[0-9;]*m//g; s/\.*$//' |
        grep -E '^([0-9]+ [0-9a-f]{4}|returned [0-9a-f]{4}|input [0-9]+ ended)$'
}

[ $# -gt 0 ] || set -- "$here"/*/
for folder in "$@"; do runs "$folder/input" "$folder"/*.c > "$folder/expected"; done
modem=$here/../../examples/files/modem
runs "$modem/modem.in" "$modem"/*.c > "$modem/modem.out"
