#!/bin/sh
# What `lower` takes for sources of 1 MiB: lets the program of tests ec_corpus lower 4,096 functions that call each other, and
# 1,385 functions of 256 variables, and prints the seconds (the median of five runs) and the peak of memory; reading, typing and
# telling how many statements there are is in it. To be run by hand, on a machine that does nothing else, where ec_corpus is
# built (`rt run` in crates/ec_corpus).
#
# Expected: each takes less than a second and 500 MB.
# shellcheck disable=SC1091,SC2034,SC2154
. "$(dirname "$0")/program.sh"

program=$top/crates/ec_corpus/out/ec_corpus
if [ ! -x "$program" ]; then
    echo "$0: there is no $program: build it by 'rt run --' in crates/ec_corpus" >&2
    exit 1
fi

# source_of KIND: 1 MiB at most
source_of() {
    awk -v kind="$1" 'BEGIN {
        if (kind == "calls") {
            for (i = 0; i < 4095; i++) {
                text = "int f" i "(int n){ int a; int b; if (n < 1) return n; "
                text = text "{^ a = f" (i * 7 + 1) % 4095 "(n - 1); b = f" (i * 11 + 5) % 4095 "(n - 2); ^} "
                print text "for (a = 0; a < n; a++) b = b + f" (i + 1) % 4095 "(a - n) * 2; return a + b; }"
            }
            print "int main(int n){ return f0(n); }"
        } else {
            letters = "abcdefghijklmnoqrstuvwxyz"
            names = "a"
            for (v = 2; v <= 25; v++) names = names "," substr(letters, v, 1)
            for (v = 1; v <= 25; v++) names = names "," toupper(substr(letters, v, 1))
            for (v = 0; v < 205; v++) names = names "," sprintf("%c%c", 65 + int(v / 26), 97 + v % 26)
            for (i = 0; i < 1385; i++) print "int f" i "(int p){int " names ";a=p+b;return a;}"
            print "int main(){ return 0; }"
        }
    }' | head -c 1048576
}

echo 'source       KiB   seconds   peak MB'
for kind in calls variables; do
    source_of "$kind" >source.ec
    echo 'source.ec form' >rows
    found=$(measured form source.ec)
    grep -q ' functions' out || echo "$0: $kind was not lowered: $(head -c 200 out)" >&2
    awk -v kind="$kind" -v bytes="$(wc -c <source.ec)" -v taken="${found% *}" -v peak="${found#* }" 'BEGIN {
        printf "%-10s %5d   %7.3f   %7.1f%s\n", kind, bytes / 1024, taken / 1e9, peak / 1024,
            taken < 1e9 && peak < 500 * 1024 ? "" : "   more than expected" }'
done
