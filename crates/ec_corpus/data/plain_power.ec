#include <stdio.h>
int power(int b, int e) { int r = 1; while (e > 0) { if (e & 1) r = r * b; b = b * b; e = e >> 1; } return r; }
int main() { int i, r; for (i = 0; i < 70; i = i + 9) { r = power(3, i); printf("%ld ", r); } r = power(-7, 33); printf("%ld\n", r); return 1; }
