#!/bin/sh
# What `means` takes for as many ticks as there are, 16,777,216: prints for a loop of arithmetic, a walk over a list of 1,000
# cells and the numbers of Fibonacci by calls the seconds and the peak of memory (the median of five runs), and then how the
# deepest calls end within a stack of 1 MiB. To be run by hand, on a machine that does nothing else.
#
# Expected: each takes less than 5 seconds and 300 MB; 512 activations are open at once within that stack, and 513 are too
# deep.
# shellcheck disable=SC1091,SC2154
. "$(dirname "$0")/program.sh"

cat >arithmetic.ec <<'END'
int main() { int x; int i; while (1) { x = x * 3 + i % 7; i++; } return x; }
END
cat >list.ec <<'END'
struct cell { int value; struct cell *next; };
int main() {
  struct cell *list; struct cell *p; int i; int sum;
  for (i = 0; i < 1000; i++) { p = malloc(sizeof(struct cell)); p->value = i; p->next = list; list = p; }
  while (1) { for (p = list; p != NULL; p = p->next) sum = sum + p->value; }
  return sum;
}
END
cat >fib.ec <<'END'
int fib(int n) { int a; int b; if (n < 2) { return n; } {^ a = fib(n - 1); b = fib(n - 2); ^} return a + b; }
int main() { int x; while (1) x = fib(20); return x; }
END

echo 'program        seconds   peak MB'
for name in arithmetic list fib; do
    found=$(measured means "$name.ec")
    awk -v name="$name" -v taken="${found% *}" -v peak="${found#* }" 'BEGIN {
        printf "%-12s   %7.3f   %7.1f%s\n", name, taken / 1e9, peak / 1024,
            taken < 5e9 && peak < 300 * 1024 ? "" : "   more than expected" }'
done

cat >deep.ec <<'END'
int d(int n) { int r; if (n == 0) { return 0; } r = d(n - 1); return r + 1; }
int main(int n) { int r; r = d(n); return r; }
END
echo
for calls in 510 511; do
    # shellcheck disable=SC3045 # dash and bash have it
    line=$( (ulimit -s 1024 && exec "$program" means deep.ec "$calls") 2>&1 || :)
    echo "$((calls + 2)) activations with a stack of 1 MiB: $line"
done
