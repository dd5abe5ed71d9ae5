#include <stdio.h>
#include <stdlib.h>
struct s { int v; };
struct tree { int f3; int f2; int v; struct s *f1; int f0[2]; };
int f1(struct tree *a1, int *a2)
{
  {^
    {
      *a2 = (8 * 5) * 6;
      ;
    }
    ;
  ^}
  {
    int i3;
    forall (i3 = 0; i3 < 3; i3++)
    {
      shared int h4;
      ;
    }
  }
  {^
    ;
    {
      shared int h5;
      if ((5 <= (0 || 5)))
      {
        int **p6 = (int **) malloc(2 * sizeof(int *));
        addto(&h5, a1 == a1);
        writeto(&h5, (3 * 7) * (8 && 5));
        (*a1).f2 = (1 || 2) < 1;
      }
    }
    a2[0] = ((5)) - 7;
  ^}
  {
    a1[0] = a1[0];
    a1[0] = *a1;
    ;
  }
  return a1 == a1;
}
int main()
{
  if (((!3) || (!3)))
  {
    int x7 = ((8));
    printf("%ld %ld %ld\n", (NULL == NULL) == (~x7), ((x7)), (6 + x7) >> 8);
    {
      int i8;
      for (i8 = 0; i8 < 2; i8++)
      {
        printf("%ld %ld %ld\t", (x7 < x7) <= ((i8)), (i8 != x7), (x7 ^ x7) && (i8 || x7));
        printf("!");
      }
    }
    x7++;
  }
  {^
    f1(NULL, NULL);
  ^}
  return (1 && 1);
}