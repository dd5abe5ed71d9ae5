#include <stdio.h>
int main() {
  int *a, n = 50, i, j, count = 0;
  a = (int *) malloc((n + 1) * sizeof(int));
  for (i = 2; i <= n; i++) {
    if (!a[i]) { count++; printf("%ld ", i); for (j = i * i; j <= n; j = j + i) a[j] = 1; }
  }
  printf("\n%ld\n", count);
  return count;
}
