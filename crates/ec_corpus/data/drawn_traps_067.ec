#include <stdio.h>
struct s { struct s *f2; int v; int f0; struct s *f1; };
void f1(int *a1, int a2, int a3)
{
  a3++;
  {
    int i4;
    while (i4 < 1)
    {
      i4 = i4 + 1;
      {
        int *p5 = (int *) malloc(2 * sizeof(int));
        ;
      }
    }
  }
  a2++;
}
int f2(shared int *a6, int a7, int a8)
{
  int x9 = a7 * (a7 + a8);
  int x10 = a8;
  {
    int i11;
    for (i11 = 0; i11 < 1; i11++)
    {
      local int *l12 = malloc(4 * sizeof(int));
      if ((valueof(a6)))
      {
        int *p13 = (int *) malloc(1 * sizeof(int));
        printf("%ld\n", (a8 > i11));
      }
    }
  }
  printf("%d %d;", 6 | (valueof(a6)), (x9 % 2));
  if (((a7 << 8)))
  {
    int *p14 = (int *) malloc(1 * sizeof(int));
    a7++;
    a7++;
  }
  else
  {
    x10++;
    x9--;
  }
  x9++;
  return valueof(a6);
}
struct s *f3(int a15, int a16, int a17)
{
  f1((int *) malloc((a15 * a15) * sizeof(int)), a15, malloc(3 * sizeof(struct s)) && a17)@HOME;
  f1((int *) malloc(1 * 3 * sizeof(int)), a15 << 7, a15)@ANYWHERE;
  f1(malloc(2 * sizeof(int)), (2), malloc(sizeof(struct s)) || 831)@HOME;
  return malloc(3 * sizeof(struct s));
}
int main(int n18)
{
  int r19;
  int x20 = 3;
  int x21 = r19;
  if (n18 > 0) r19 = main((n18 & 3) - 1);
  if ((x20 < ((n18))))
  {
    struct s *p22 = malloc(4 * sizeof(struct s));
    local struct s *l23 = malloc(4 * sizeof(struct s));
    ;
  }
  else
  {
    if (f3(n18, x21, x20))
    {
      struct s *p24 = (struct s *) malloc(3 * sizeof(struct s));
      local int *l25 = malloc(3 * sizeof(int));
      p24 = p24;
    }
    else
    {
      int **p26 = malloc(4 * sizeof(int *));
      struct s *p27 = malloc(2 * sizeof(struct s));
      f1(malloc(sizeof(int)), x20 + 7, x20 % 7)@OWNER_OF(p27);
    }
    r19 = x21 < (x21 / 9);
  }
  {^
    x20--;
    f3(r19 && n18, (x20), 2 << r19);
  ^}
  {
    {^
      {
        f3(r19, (n18), !6)@NODE(r19);
      }
      f1((int *) malloc(5 * sizeof(int)), r19 + 1, 0 & 166);
      f3((3), r19 == x20, 1)@ANYWHERE;
    ^}
  }
  printf("%d %d %ld\n", (int **) malloc(sizeof(int *)) != malloc(sizeof(int *)), ((r19)) * (f3(3, 1048576, x20) && 632), (x21 + x21) || f3(x20, 553, n18)@HOME);
  return malloc(sizeof(int)) != NULL;
}