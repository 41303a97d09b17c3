#!/usr/bin/env bash
# The routines for / and % and for >> by a count that is no constant, in the words of compiled programs: by every divisor 40 dividends each, and every
# word by every count. What they come to is computed by awk. Four programs run at a time.
script=routines
. "$(dirname "${BASH_SOURCE[0]}")/common.sh"
# How many divisors, or words that are shifted, a program has.
part=4096
dividends='0 1 2 3 5 7 10 15 16 31 100 127 128 255 256 257 999 1000 4095 4096 10000 12345 16383 16384 20000 30000 32766 32767
32768 32769 32770 33000 40000 45678 49152 50000 60000 65000 65534 65535'

# divides TYPE OPERATOR FIRST LAST: a program that puts for each divisor a number that all 40 results make.
divides() {
    cat << END
unsigned lefts[40] = {$(echo $dividends | sed 's/ /u, /g')u};
int main(void) {
    unsigned right; unsigned i; unsigned sum;
    right = $3u;
    while (1) {
        sum = 0u;
        for (i = 0u; i < 40u; i++)
            if ($([ "$1" = int ] && echo 'lefts[i] != 32768u || right != 65535u' || echo 1))
                sum = sum * 31u + (unsigned)(($1)lefts[i] $2 ($1)right);
        __out(0, sum);
        if (right == $4u) return 0;
        right++;
    }
}
END
}

# shifts TYPE FIRST LAST: a program that puts for each word a number that its shifts by 0 to 15 make.
shifts() {
    cat << END
int main(void) {
    unsigned word; int count; unsigned sum;
    word = $2u;
    while (1) {
        sum = 0u;
        for (count = 0; count < 16; count++) sum = sum * 31u + (unsigned)(($1)word >> count);
        __out(0, sum);
        if (word == $3u) return 0;
        word++;
    }
}
END
}

# wanted TYPE OPERATOR FIRST LAST: the lines that such a program puts.
wanted() {
    awk -v type="$1" -v operator="$2" -v first="$3" -v last="$4" -v dividends="$(echo $dividends)" '
    function number(word) { return type == "int" && word >= 32768 ? word - 65536 : word }
    function floor(a, b,   q) { q = int(a / b); return q * b > a ? q - 1 : q }
    function value(a, b,   q) {
        if (operator == ">>") return floor(a, 2 ^ b)
        q = int(a / b)
        return operator == "/" ? q : a - b * q
    }
    BEGIN {
        lefts = split(dividends, left, " ")
        for (word = first; word <= last; word++) {
            sum = 0
            if (operator == ">>")
                for (count = 0; count < 16; count++) sum = (sum * 31 + value(number(word), count) + 65536) % 65536
            else
                for (i = 1; i <= lefts; i++)
                    if (type != "int" || left[i] != 32768 || word != 65535)
                        sum = (sum * 31 + value(number(left[i] + 0), number(word)) + 65536) % 65536
            printf "0 %04x\n", sum
        }
        print "returned 0000"
    }'
}

# compares NAME TYPE OPERATOR FIRST LAST
compares() {
    if [ "$3" = '>>' ]; then shifts "$2" "$4" "$5"; else divides "$2" "$3" "$4" "$5"; fi > "$1.c"
    "$program" exec "$1.c" ports --steps 100000000 > "$1.got"
    wanted "$2" "$3" "$4" "$5" > "$1.wanted"
    cmp -s "$1.got" "$1.wanted" || echo "routines: $2 $3 from $4 to $5 came to $(diff "$1.got" "$1.wanted" | head -n 3 | tr '\n' ' ')" > "$1.failed"
}

: > ports
names=0
for type in int unsigned; do
    for operator in / % '>>'; do
        for ((from = 0; from < 65536; from += part)); do
            names=$((names + 1))
            first=$from
            [ "$operator" = '>>' ] || [ "$from" -gt 0 ] || first=1
            compares "$names" "$type" "$operator" "$first" $((from + part - 1)) &
            [ "$(jobs -r | wc -l)" -lt 4 ] || wait -n
        done
    done
done
wait
cat ./*.failed 2> /dev/null && exit 1
echo 'routines: all passed'
