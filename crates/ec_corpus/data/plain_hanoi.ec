#include <stdio.h>
int hanoi(int n, int from, int to, int via) { int k; if (n == 0) return 0; k = hanoi(n - 1, from, via, to);
  printf("%ld->%ld ", from, to); return k + 1 + hanoi(n - 1, via, to, from); }
int main() { int k; k = hanoi(4, 1, 3, 2); printf("\n%ld\n", k); return k; }
