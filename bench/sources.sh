# Sources that the measurements here build. A script reads this file.
# source_of SCALARS STATEMENTS: a function of so many scalars, of which random ones are added to one another, from a fixed seed.
source_of() {
    awk -v scalars="$1" -v statements="$2" 'BEGIN {
        seed = 12345
        printf "int main(void){"
        for (s = 0; s < scalars; s++) printf "int s%d = 0;", s
        for (i = 0; i < statements; i++) {
            seed = seed * 16807 % 2147483647; a = int(seed / 65536) % scalars
            seed = seed * 16807 % 2147483647; b = int(seed / 65536) % scalars
            printf "s%d += s%d;", a, b
            if (i % 25 == 24) printf "__out(1, s%d);", a
        }
        printf "return 0;}\n"
    }'
}
