#include <stdio.h>
int count(int x) { int n = 0; for (; x; x = x & (x - 1)) n++; return n; }
int main() { int i, h = 1469598103; for (i = 0; i < 20; i++) { h = (h ^ i) * 16777619; h = h ^ (h >> 7) ^ (h << 3); }
  printf("%ld\n", h); h = ~h | 1; printf("%ld %ld\n", h, h % 1000); i = count(h); return i; }
