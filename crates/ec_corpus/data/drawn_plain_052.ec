#include <stdio.h>
#include <stdlib.h>
struct s { int v; };
int f1(local struct s *a1, int a2, int a3)
{
  int *p4 = (int *) malloc(2 * sizeof(int));
  if ((*p4))
  {
    ;
    a2++;
    {
      int i5;
      for (i5 = 0; i5 < 3; i5++)
      {
        ;
      }
    }
  }
  if (((a3 - a3) | (a2 < 4)))
  {
    int x6 = a1[0].v;
    {
      int i7;
      for (i7 = 0; i7 < 3; i7++)
      {
        ;
        ;
      }
    }
  }
  else
  {
    struct s *p8 = (struct s *) malloc(2 * sizeof(struct s));
    int x9 = p4[0];
    ;
    ;
  }
  ;
  return a1->v;
}
struct s *f2()
{
  {^
    ;
    f1((struct s *) malloc(sizeof(struct s)), 572 - 0, 1 & 0);
  ^}
  {
    int i10;
    for (i10 = 0; i10 < 3; i10++)
    {
      local int **l11 = (int **) malloc(2 * sizeof(int *));
      ;
      ;
    }
  }
  f1((struct s *) malloc(sizeof(struct s)), NULL != NULL, (7));
  return (struct s *) malloc(sizeof(struct s));
}
void f3()
{
  int x12;
  struct s *p13 = (struct s *) malloc(3 * sizeof(struct s));
  x12 = (8 == x12) - (x12 & 7);
  {
    int i14;
    for (i14 = 1; i14 > 0; )
    {
      i14--;
      {
        {
          f1((struct s *) malloc(5 * sizeof(struct s)), !i14, x12 + i14);
          f2();
          f2();
        }
      }
    }
  }
}
int main(int n15, int n16)
{
  int x17 = 2;
  {
    int x18 = (x17 || x17) <= (1 && x17);
    printf("\n");
    {^
      {
        shared int h19;
        int x20 = NULL == NULL;
        addto(&h19, x17);
      }
    ^}
    {
      printf("%ld %ld %ld!", ((n16)), (x17 - 7) | ((x17)), (x17 * 9) % 7);
      n16++;
      printf("\n");
    }
  }
  if (((n16 && NULL)))
  {
    f3();
    printf("%ld %ld %ld%%", ((x17)) + (n16 || x17), (6 && 4), (x17 << 3));
  }
  return ((n15));
}
