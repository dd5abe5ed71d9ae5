/* A parallel loop over an array: the turns touch different elements, as the loop's header shows, so none interferes. */
#include <stdio.h>

int main() {
  int *a;
  int i;
  a = malloc(10 * sizeof(int));
  forall (i = 0; i < 10; i++) a[i] = i * i;
  for (i = 0; i < 10; i++) printf("%d\n", a[i]);
  return 0;
}
