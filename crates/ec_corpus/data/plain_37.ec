#include <stdio.h>
struct s { int v; struct s *f0; };
void f1(int a1, int a2, struct s *a3)
{
  int **p4 = (int **) malloc(3 * sizeof(int *));
  int x5 = (a1 < 6);
  ;
  ;
  ;
  ;
}
void f2(int a6, int a7)
{
  f1(a6 >= a7, -a6, NULL);
  {
    int i8;
    while (i8 < 3)
    {
      i8 = i8 + 1;
      {
        int x9;
        int *p10 = (int *) malloc(2 * sizeof(int));
        if (((7 - i8)))
        {
          int x11 = ((a7)) >> 1;
          f1(5 && i8, 7, NULL);
        }
        else
        {
          struct s *p12 = (struct s *) malloc(2 * sizeof(struct s));
          a6 = ((x9)) >= (~0);
        }
        {
          f1(9 > i8, x9, NULL);
          f1(569 ^ 2, 3 <= a6, NULL);
        }
      }
    }
  }
  f1(a6 != a7, a6 == 356, NULL);
}
int main()
{
  int *p13 = (int *) malloc(4 * sizeof(int));
  ;
  {
    int i14;
    for (i14 = 0; i14 < 4; i14++)
    {
      int x15 = ((0)) >> 1;
      {
        int i16;
        for (i16 = 0; i16 < 1; i16++)
        {
          x15--;
        }
      }
      {
        x15++;
        x15 = (7);
      }
      printf(";");
    }
  }
  if ((((8))))
  {
    int *p17 = (int *) malloc(2 * sizeof(int));
    struct s *p18 = (struct s *) malloc(2 * sizeof(struct s));
    if (746)
    {
      printf("-");
      f2(2 * 1, 1 && 2);
      f2(-5, 147 >> 5);
    }
    else
    {
      int x19;
      printf("%ld %ld\n", x19, x19);
    }
    if ((p18->v))
    {
      int x20;
      (*p18).f0 = p18;
      f2(x20 + x20, (x20));
      f2(4, x20);
    }
    else
    {
      struct s *p21 = (struct s *) malloc(3 * sizeof(struct s));
      p18[1].v = (-0) * 2;
      ;
    }
  }
  else
  {
    int x22 = ((803)) <= (~5);
    int x23;
    f1((6), 3 | 1, NULL);
    f1(x22 >= x22, p13[1], NULL);
  }
  printf("-");
  {
    int i24;
    for (i24 = 4; i24 > 0; )
    {
      i24--;
      {
        if (((267 <= 6) || (i24 % 9)))
        {
          int x25;
          int *p26 = (int *) malloc(1 * sizeof(int));
          x25 = x25;
          printf("%ld %ld\n", x25, i24);
          x25 = ((i24));
        }
        printf("%ld\n", i24);
      }
    }
  }
  return 5;
}
