# A program of quotients, remainders and shifts of both kinds, of words from a port by such words and by constants. It is put on
# standard output, its input in the file edges.ports, and what it puts, by arithmetic, in edges.wants.

function int_of(word) { return word < 32768 ? word : word - 65536 }
function puts(port, value) { printf "%d %04x\n", port, (value % 65536 + 65536) % 65536 > "edges.wants" }
function divides(left, right) {
    puts(0, int(left / right))
    puts(1, left - right * int(left / right))
}
function shifts(word, count,  power) {
    power = 2 ^ count
    puts(0, word * power)
    puts(1, (int_of(word) - (int_of(word) % power + power) % power) / power)
    puts(0, word * power)
    puts(1, int(word / power))
}
function does(form, left, right) {
    gsub(/L/, left, form)
    gsub(/R/, right, form)
    return form
}
BEGIN {
    words = split("0 1 65535 2 3 7 65529 32767 32768 40000", word, " ")
    split("0 1 (-1) 2 3 7 (-7) 32767 (-32767-1) (int)40000u", number, " ")
    counts = split("0 1 7 8 9 14 15", count, " ")
    divide = "__out(0, L / R); __out(1, L % R); "
    shift = "__out(0, L << R); __out(1, L >> R); "
    print "int main(void) { int a, b; unsigned u, v; for (;;) { a = __in(0); b = __in(1); u = a; v = b; switch (__in(2)) {"
    print "case 0:", does(divide, "a", "b")
    print "case 1:", does(divide, "u", "v") does(divide, "a", "v") does(divide, "u", "b") "break;"
    print "case 2:", does(shift, "a", "b") does(shift, "u", "v") "break;"
    # a constant beside each word
    for (j = 2; j <= words; j++) {
        print "case", 10 + j ":", does(divide, "a", number[j])
        print "case", 30 + j ":", does(divide, "u", word[j] "u") "break;"
        print "case", 50 + j ":", does(divide, number[j], "b")
        print "case", 70 + j ":", does(divide, word[j] "u", "v") "break;"
    }
    for (j = 1; j <= counts; j++) print "case", 90 + j ":", does(shift, "a", count[j]) does(shift, "u", count[j]) "break;"
    print "} } return 0; }"
    for (i = 1; i <= words; i++) {
        for (j = 2; j <= words; j++) {
            overflows = word[i] == 32768 && word[j] == 65535
            printf "0 %x\n1 %x\n2 %x\n", word[i], word[j], overflows > "edges.ports"
            if (!overflows) divides(int_of(word[i]), int_of(word[j]))
            for (k = 0; k < 3; k++) divides(word[i], word[j])
            printf "0 %x\n1 0\n2 %x\n", word[i], (overflows ? 30 : 10) + j > "edges.ports"
            if (!overflows) divides(int_of(word[i]), int_of(word[j]))
            divides(word[i], word[j])
            # word j by word i, where that isn't 0
            if (word[i] == 0) continue
            overflows = word[j] == 32768 && word[i] == 65535
            printf "0 0\n1 %x\n2 %x\n", word[i], (overflows ? 70 : 50) + j > "edges.ports"
            if (!overflows) divides(int_of(word[j]), int_of(word[i]))
            divides(word[j], word[i])
        }
        for (j = 1; j <= counts; j++) {
            printf "0 %x\n1 %x\n2 2\n0 %x\n1 0\n2 %x\n", word[i], count[j], word[i], 90 + j > "edges.ports"
            shifts(word[i], count[j])
            shifts(word[i], count[j])
        }
    }
    print "input 0 ended" > "edges.wants"
}
