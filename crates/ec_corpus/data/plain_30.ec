#include <stdio.h>
struct s { int *f0; int v; int f1[3]; struct s *f2; };
struct s *f1(int a1)
{
  int x2 = (a1 << 8) + 4;
  x2 = x2 && NULL;
  x2 = x2;
  if (x2)
  {
    struct s *p3 = (struct s *) malloc(4 * sizeof(struct s));
    ;
    ;
    {
      int i4;
      for (i4 = 0; i4 < 2; i4++)
      {
        ;
      }
    }
  }
  else
  {
    struct s *p5 = (struct s *) malloc(2 * sizeof(struct s));
    {
      int x6 = 3 >> 5;
      p5->f2 = p5;
      ;
      a1 = (a1 << 8);
    }
    ;
  }
  ;
  return (struct s *) malloc(sizeof(struct s));
}
int *f2(int a7, int a8)
{
  a8 = (NULL || a7) || ((a7));
  return (int *) malloc(3 * 3 * sizeof(int));
}
int f3(int a9, int a10)
{
  f2(!990, (9));
  return ((a10));
}
int main()
{
  int x11;
  ;
  x11++;
  {
    int i12;
    while (i12 < 1)
    {
      i12 = i12 + 1;
      {
        f2((x11), (0));
        printf("%ld %ld;", i12, x11);
      }
    }
  }
  printf("%ld %ld\n", x11, x11);
  x11++;
  return ((9)) || (NULL || 0);
}