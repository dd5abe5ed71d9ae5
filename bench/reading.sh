#!/bin/sh
# How time and memory of `check` and `print` grow with the length of a source: prints for five kinds of source, from
# 128 KiB up to the limit, the seconds (the median of five runs), their ratio to the length before, and the peak of memory.
# To be run by hand, on a machine that does nothing else.
#
# Expected: twice the length takes about twice as long. At 1,024 KiB each kind takes less than a second and 250 MB: mostly
# the time of `gcc -fsyntax-only` on the same text, but up to 1.6 times in deep parentheses, and 2 to 5 times its memory.
# The tokens of the whole text are held beside its tree.
# shellcheck disable=SC1091
. "$(dirname "$0")/program.sh"

# source_of KIND BYTES: a program of so many bytes, one and the same text again and again
source_of() {
    awk -v kind="$1" -v bytes="$2" '
        function many(count, text,    all) {
            while (count-- > 0) all = all text
            return all
        }
        function fill(size, head, text, tail) {
            printf "%s", head
            for (size -= length(head tail); size >= length(text); size -= length(text)) printf "%s", text
            printf "%s%s", tail, many(size, " ")
        }
        BEGIN {
            if (kind == "assignments") fill(bytes, "int main(){int x;", "x=1;", "return 0;}")
            if (kind == "functions") for (i = 1; i <= bytes / 256; i++) fill(256, "int f" i "(){int x;", "x=1;", "return x;}")
            if (kind == "parentheses") fill(bytes, "int main(){int x;", "x=" many(63, "(") "1" many(63, ")") ";", "return 0;}")
            if (kind == "semicolons") fill(bytes, "int main(){", ";", "return 0;}")
            if (kind == "blocks") fill(bytes, "int main(){", many(63, "{") many(63, "}"), "return 0;}")
        }'
}

echo 'source        KiB   check s   ratio   peak MB   print s   ratio   peak MB'
for kind in assignments functions parentheses semicolons blocks; do
    checked=0
    printed=0
    for size in 128 256 512 1024; do
        source_of "$kind" $((size * 1024)) >source.ec
        check=$(measured check source.ec)
        print=$(measured print source.ec)
        echo "$kind $size $check $checked $print $printed" | awk '
            function told(taken, peak, before) {
                return sprintf("   %7.3f   %5s   %7.1f", taken / 1e9, before > 0 ? sprintf("%.2f", taken / before) : "-", peak / 1024)
            }
            { printf "%-12s %4d%s%s\n", $1, $2, told($3, $4, $5), told($6, $7, $8) }'
        checked=${check% *}
        printed=${print% *}
    done
done
