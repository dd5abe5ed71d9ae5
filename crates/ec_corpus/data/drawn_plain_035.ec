#include <stdio.h>
#include <stdlib.h>
struct s { int f0; int v; };
struct tree { int v; };
int f1(int a1, int a2)
{
  struct tree *p3 = (struct tree *) malloc(1 * sizeof(struct tree));
  {
    int i4;
    while (i4 < 1)
    {
      i4 = i4 + 1;
      {
        int x5 = !a1;
        a1 = ((i4)) != ((a1));
      }
    }
  }
  return 876;
}
int f2()
{
  ;
  ;
  {^
    f1(~0, 8 ^ 9);
    f1(7, (168));
    {
      struct tree *p6 = (struct tree *) malloc(3 * sizeof(struct tree));
      int *p7 = (int *) malloc(4 * sizeof(int));
      f1(p7 != p7, !6);
      ;
    }
  ^}
  if ((struct s *) malloc(3 * sizeof(struct s)))
  {
    {^
      ;
      f1(5 & 2, 6 * 1);
    ^}
    {
      printf("\n");
      ;
    }
  }
  printf("\t");
  return (0 + 8) ^ (7 | 875);
}
int f3(int a8, local struct s *a9, int a10)
{
  int x11 = a10 || (a9 == a9);
  if (((0)))
  {
    int x12 = (a8 << 6);
    {
      a10++;
      f1(~a8, x11 >= a10);
    }
    f1((1), 3 + 322);
    {^
      f1(671 << 4, (x11));
      f1(x12 | 2, 7 || 4);
      {
        struct s *p13 = (struct s *) malloc(1 * sizeof(struct s));
        int x14;
        f1(x11, a8 % 6);
        f1(2, x12 && x14);
      }
    ^}
  }
  f1(8 * a8, a8 & a10);
  return a8 / 5;
}
int f4()
{
  ;
  {
    int i15;
    forall (i15 = 0; i15 < 1; i15++)
      ;
  }
  return NULL == NULL;
}
int main(int n16, int n17)
{
  int x18 = (!n16) ^ n16;
  f3((n17), (struct s *) malloc(sizeof(struct s)), n16 == n16);
  return -((n17));
}
