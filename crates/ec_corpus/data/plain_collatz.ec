#include <stdio.h>
int steps(int n) { int s = 0; while (n != 1) { if (n % 2) n = 3 * n + 1; else n = n / 2; s++; } return s; }
int main() { int i, best = 0, at = 0; for (i = 1; i < 40; i++) { int s; s = steps(i); if (s > best) { best = s; at = i; } }
  printf("%ld %ld\n", at, best); return at; }
