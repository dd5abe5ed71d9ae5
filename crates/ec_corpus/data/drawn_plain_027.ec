#include <stdio.h>
#include <stdlib.h>
void f1(shared int *a1)
{
  int x2 = ((4)) || (9 * 9);
  int *p3 = (int *) malloc(4 * sizeof(int));
  printf("!");
  if ((p3[0]))
  {
    {
      int i4;
      forall (i4 = 0; i4 < 3; i4++)
        x2++;
    }
    if (p3)
    {
      p3[0] = (p3 && 6) >> 8;
      if ((x2 >> 3)) return;
    }
  }
  else
  {
    int x5 = ((4611686018427387904)) / 7;
    ;
    x2++;
  }
  {
    int i6;
    for (i6 = 0; i6 < 4; i6++)
    {
      int x7 = 5;
      x2++;
      ;
    }
  }
  p3[0] = x2;
}
int main()
{
  int x8;
  {
    {
      int i9;
      forall (i9 = 0; i9 < 4; i9++)
      {
        int *p10 = (int *) malloc(3 * sizeof(int));
        int **p11 = (int **) malloc(4 * sizeof(int *));
        ;
      }
    }
    ;
  }
  return ((9)) != ((1));
}
