#include <stdio.h>
struct m { int a[9]; };
void times(struct m *x, struct m *y, struct m *z) { int i, j, k; for (i = 0; i < 3; i++) for (j = 0; j < 3; j++) {
    int s = 0; for (k = 0; k < 3; k++) s = s + x->a[i * 3 + k] * y->a[k * 3 + j]; z->a[i * 3 + j] = s; } }
int main() { struct m *x, *y; int i; x = (struct m *) malloc(2 * sizeof(struct m)); y = (struct m *) malloc(sizeof(struct m));
  for (i = 0; i < 9; i++) { x[0].a[i] = i - 4; y->a[i] = i % 3; } x[1] = *x; times(x, y, x);
  for (i = 0; i < 9; i++) printf("%ld %ld;", (*x).a[i], x[1].a[i]); return 3; }
