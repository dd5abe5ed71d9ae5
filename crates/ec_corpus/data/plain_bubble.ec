#include <stdio.h>
void sort(int *a, int n) { int i, j; for (i = 0; i < n - 1; i++) for (j = 0; j < n - 1 - i; j++)
    if (a[j] > a[j + 1]) { int t = a[j]; a[j] = a[j + 1]; a[j + 1] = t; } }
int main() { int *a, i, x = 17; a = (int *) malloc(12 * sizeof(int));
  for (i = 0; i < 12; i++) { x = (x * 31 + 7) % 101; a[i] = x - 50; }
  sort(a, 12);
  for (i = 0; i < 12; i++) printf("%ld,", a[i]);
  return a[0] & 127; }
