#include <stdio.h>
struct s { int v; int f0[4]; };
struct tree { struct tree *f0; struct s *f1; int v; };
int *f1()
{
  int x1;
  {
    int i2;
    while (i2 < 1)
    {
      i2 = i2 + 1;
      {
        ;
        ;
      }
    }
  }
  return (int *) malloc(sizeof(int));
}
int main()
{
  struct tree *p3 = (struct tree *) malloc(2 * sizeof(struct tree));
  int x4 = (4);
  {
    x4 = x4;
    f1();
  }
  f1();
  printf("%ld\t", x4);
  printf("%ld %ld %ld%%", x4, x4, x4);
  {
    int i5;
    for (i5 = 0; i5 < 2; i5++)
    {
      printf("\t");
      f1();
    }
  }
  return ((2)) >> 9;
}
