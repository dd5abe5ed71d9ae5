#include <stdio.h>
int next(int *s) { int a = s[0], b = s[1]; s[0] = b; s[1] = (a * 1103515245 + b + 12345) % 2147483648; return s[1] >> 4; }
int main() { int *s = (int *) malloc(2 * sizeof(int)); int i, x, even = 0; s[0] = 3; s[1] = 14; for (i = 0; i < 25; i++) { x = next(s); if (x % 2 == 0) even++; else printf("%ld\n", x); }
  return even; }
