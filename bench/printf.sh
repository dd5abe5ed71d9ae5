#!/bin/sh
# How time and memory grow with the number of statements: runs sources of one and the same printf, and prints for each
# size the seconds (the median of five runs, less what a source of one statement takes), their ratio to the size before,
# and the peak of memory. To be run by hand, on a machine that does nothing else.
#
# Expected: from 5,000 statements on, twice as many take at most 2.25 times as long (so 80,000 at most 5.1 times as long
# as 20,000), and 20,000 take less than 2 seconds and 200 MB.
# shellcheck disable=SC1091
. "$(dirname "$0")/program.sh"

# source_of COUNT: a program of so many statements, each a line of 13 bytes: 80,000 stay below the limit of bytes
source_of() {
    awk -v count="$1" 'BEGIN { print "int main() {"; while (count-- > 0) print "printf(\"1\");"; print "return 0; }" }'
}

# taken COUNT: what it takes to run so many statements
taken() {
    source_of "$1" >"$1.ec"
    measured run "$1.ec"
}

start=$(taken 1)
start=${start% *}
before=0
echo 'statements   seconds   ratio   peak MB'
for count in 5000 10000 20000 80000; do
    found=$(taken "$count")
    more=$((${found% *} - start))
    awk -v count="$count" -v taken="$more" -v before="$before" -v peak="${found#* }" 'BEGIN {
        ratio = before > 0 ? sprintf("%.2f", taken / before) : "-"
        printf "%10d   %7.3f   %5s   %7.1f\n", count, taken / 1e9, ratio, peak / 1024 }'
    before=$more
done
