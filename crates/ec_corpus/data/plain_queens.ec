#include <stdio.h>
int place(int *col, int n, int r) { int c, count = 0; if (r == n) return 1;
  for (c = 0; c < n; c++) { int k, ok = 1; for (k = 0; k < r; k++) if (col[k] == c || col[k] - c == r - k || c - col[k] == r - k) ok = 0;
    if (ok) { int m; col[r] = c; m = place(col, n, r + 1); count = count + m; } } return count; }
int main() { int *col = (int *) malloc(6 * sizeof(int)); int n; n = place(col, 6, 0); printf("%ld\n", n); return n; }
