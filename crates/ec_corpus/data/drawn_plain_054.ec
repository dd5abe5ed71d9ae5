#include <stdio.h>
#include <stdlib.h>
int f1(int a1)
{
  local int *l2 = (int *) malloc(2 * sizeof(int));
  ;
  {
    int i3;
    forall (i3 = a1 & 3; i3 < 2; i3 = i3 + 1)
      ;
  }
  return (1048576 ^ a1) != (~a1);
}
int main()
{
  ;
  printf(";");
  if (535)
  {
    ;
  }
  printf("%ld %ld\t", (6 >= 3) && (-1), (5));
  printf("%ld %ld\t", 5 ^ (0 ^ 951), 8);
  return 3;
}
