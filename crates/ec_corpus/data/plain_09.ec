#include <stdio.h>
struct s { int f0; int f2; int f1; int v; };
struct tree { int f0[1]; int v; };
int f1()
{
  ;
  if ((!((0))))
  {
    int *p1 = (int *) malloc(4 * sizeof(int));
    ;
    {
      int i2;
      for (i2 = 0; i2 < 3; i2++)
      {
        struct s *p3 = (struct s *) malloc(3 * sizeof(struct s));
        int x4 = (i2 * i2);
        printf("%ld %ld %ld!", x4, i2, i2);
        ;
      }
    }
    ;
  }
  {
    int i5;
    for (i5 = 0; i5 < 2; i5++)
    {
      if ((-((i5))))
      {
        ;
        printf("\n");
      }
    }
  }
  return NULL != NULL;
}
int f2()
{
  int x6;
  struct s *p7 = (struct s *) malloc(2 * sizeof(struct s));
  f1();
  x6 = x6;
  return 796;
}
struct tree *f3(struct tree *a8)
{
  int x9;
  ;
  return a8;
}
int main()
{
  struct tree *p10 = (struct tree *) malloc(3 * sizeof(struct tree));
  {
    int i11;
    for (i11 = 0; i11 < 3; i11++)
    {
      int x12 = (i11 - i11) + (4 && i11);
      int x13;
      f2();
    }
  }
  {
    int i14;
    for (i14 = 1; i14 > 0; )
    {
      i14--;
      {
        int x15 = ((i14)) / 2;
        x15++;
        printf("%ld\t", i14);
      }
    }
  }
  printf("-");
  return (7 % 7) | ((1));
}