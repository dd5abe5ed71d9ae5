#include <stdio.h>
int main() { int *row, n = 12, i, j; row = (int *) malloc((n + 1) * sizeof(int)); row[0] = 1;
  for (i = 0; i < n; i++) { for (j = i; j > 0; j--) row[j] = row[j] + row[j - 1]; for (j = 0; j <= i; j++) printf("%ld ", row[j]); printf("%%\n"); }
  return row[5] & 255; }
