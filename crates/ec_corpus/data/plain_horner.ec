#include <stdio.h>
int main() { int *c, i, x; c = (int *) malloc(5 * sizeof(int)); for (i = 0; i < 5; i++) c[i] = i * i - 2 * i;
  for (x = -3; x <= 3; x++) { int v = 0; for (i = 4; i >= 0; i--) v = v * x + c[i]; printf("%ld\t", v); } printf("\"end\"\\\n"); return 0; }
