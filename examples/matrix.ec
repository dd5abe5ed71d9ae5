/* The square of a matrix: a parallel loop makes the rows of the product, each in its own place.
   Evaluate it by `earthc means examples/matrix.ec`. It prints the lines
     30 36 42
     66 81 96
     102 126 150 */
#include <stdio.h>

struct row {
  int at[3];
};

/* the number in row i and column j of the product of two matrices */
int entry(struct row *a, struct row *b, int i, int j) {
  int k;
  int sum;
  for (k = 0; k < 3; k++) { sum = sum + a[i].at[k] * b[k].at[j]; }
  return sum;
}

int main() {
  struct row *a;
  struct row *product;
  int i;
  int j;
  a = malloc(3 * sizeof(struct row));
  product = malloc(3 * sizeof(struct row));
  for (i = 0; i < 3; i++) {
    for (j = 0; j < 3; j++) { a[i].at[j] = 3 * i + j + 1; }
  }
  forall (i = 0; i < 3; i++) {
    int column;
    for (column = 0; column < 3; column++) { product[i].at[column] = entry(a, a, i, column); }
  }
  for (i = 0; i < 3; i++) printf("%d %d %d\n", product[i].at[0], product[i].at[1], product[i].at[2]);
  return 0;
}
