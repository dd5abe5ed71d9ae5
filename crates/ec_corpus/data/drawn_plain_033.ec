#include <stdio.h>
#include <stdlib.h>
struct s { struct s *f1; int f0[1]; int v; };
int f1(shared int *a1, shared int *a2, struct s *a3)
{
  struct s *p4 = (struct s *) malloc(1 * sizeof(struct s));
  {^
    {
      int **p5 = (int **) malloc(3 * sizeof(int *));
      {^
        p4[0] = *p4;
        addto(a1, ((8)) * (2 & 5));
        addto(a1, (7 - 6) * (2 < 9));
      ^}
    }
    {
      if (a3)
      {
        int x6 = (9 > 3) * (9 == 3);
        addto(a1, valueof(a2));
        addto(a2, (x6 && x6) || (valueof(a1)));
        writeto(a1, -4);
      }
    }
    {
      ;
      ;
    }
  ^}
  return valueof(a1);
}
int *f2()
{
  int x7 = (720 != 7) && (NULL != NULL);
  {
    x7++;
    {
      int i8;
      for (i8 = 0; i8 < 3; i8++)
      {
        x7++;
      }
    }
  }
  {
    int x9;
    x7++;
    if (((0)))
    {
      int *p10 = (int *) malloc(1 * sizeof(int));
      local int *l11 = (int *) malloc(2 * sizeof(int));
      ;
      ;
    }
    else
    {
      ;
      ;
    }
    ;
  }
  x7++;
  return (int *) malloc(2 * 2 * sizeof(int));
}
int *f3()
{
  int x12 = 3;
  int x13;
  f2();
  return (int *) malloc(sizeof(int));
}
void f4(shared int *a14)
{
  {
    int i15;
    for (i15 = 0; i15 < 2; i15++)
    {
      local struct s *l16 = (struct s *) malloc(1 * sizeof(struct s));
      {^
        {
          struct s *p17 = (struct s *) malloc(2 * sizeof(struct s));
          addto(a14, 5);
          addto(a14, (valueof(a14)) >> 4);
        }
        writeto(a14, ~6);
        {
          int x18;
          int x19 = 0;
          addto(a14, valueof(a14));
          addto(a14, x19);
        }
      ^}
    }
  }
}
int main(int n20, int n21)
{
  n21++;
  n21 = 9;
  printf("%ld %ld!", (4611686018427387904 == n21) && ((n20)), n20);
  return 889 + (n21 << 4);
}
