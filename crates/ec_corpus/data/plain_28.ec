#include <stdio.h>
struct s { int v; };
struct tree { int f2[3]; int v; struct s *f1; int f0; };
int f1(int a1, int a2)
{
  int **p3 = (int **) malloc(2 * sizeof(int *));
  int x4 = (1 | a2) >> 6;
  x4 = x4;
  a2 = ((a1)) + (~6);
  printf("%ld %ld %ld\n", x4, x4, a1);
  if (((x4 ^ a2) < (x4 - a1)))
  {
    int x5 = a2;
    ;
    printf("%ld%%", a1);
    {
      int *p6 = (int *) malloc(4 * sizeof(int));
      p6[3] = x5;
      ;
    }
  }
  return (a1 - 8);
}
int f2(int a7, int a8, int a9)
{
  a8++;
  printf("\t");
  f1(6 >> 1, 798 / 9);
  return NULL != NULL;
}
int main()
{
  struct s *p10 = (struct s *) malloc(1 * sizeof(struct s));
  int x11;
  p10[0] = p10[0];
  ;
  printf("%%");
  {
    int i12;
    for (i12 = 0; i12 < 1; i12++)
    {
      int x13 = p10 == p10;
      int x14 = 4 | (2 && x13);
      x11 = (p10 == p10) >= ((x14));
      p10[0] = *p10;
      f1(i12, 8);
    }
  }
  x11 = (-x11) * x11;
  return (6 || 8) <= 4;
}
