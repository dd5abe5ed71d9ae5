#include <stdio.h>
struct s { int v; };
int f1(int **a1, int a2)
{
  int x3;
  ;
  return (a2 * a2) % 1;
}
int main()
{
  {
    int i4;
    for (i4 = 3; i4 > 0; )
    {
      i4--;
      {
        int x5 = (0 != i4) % 6;
        struct s *p6 = (struct s *) malloc(2 * sizeof(struct s));
        printf("%ld %ld\n", x5, i4);
      }
    }
  }
  if ((((4)) / 9))
  {
    int x7 = ((0)) < (2 * 799);
    int x8 = ((x7)) << 3;
    if (((7 - x8) & (4 * 7)))
    {
      int *p9 = (int *) malloc(3 * sizeof(int));
      printf("%ld;", x8);
      printf("%ld %ld %ld\t", x7, x8, x7);
      printf("%ld %ld!", x8, x8);
    }
    else
    {
      printf("%ld;", x7);
    }
    {
      int i10;
      for (i10 = 0; i10 < 1; i10++)
      {
        f1(NULL, (7));
      }
    }
  }
  else
  {
    if ((NULL == NULL))
    {
      int x11 = ((2));
      int x12;
      x11 = -(2 << 4);
    }
    ;
  }
  return ((7)) && (7 || 0);
}
