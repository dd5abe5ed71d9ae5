#include <stdio.h>
#include <stdlib.h>
struct s { struct s *f1; int f2; int f0; int f3; int v; };
int f1(int *a1)
{
  ;
  {
    int i2;
    forall (i2 = (4 > i2) & 3; i2 < 2; i2 = i2 + 1)
      ;
  }
  {
    int i3;
    forall (i3 = ((i3)) & 3; i3 < 2; i3 = i3 + 1)
    {
      int x4 = i3;
      struct s *p5 = (struct s *) malloc(1 * sizeof(struct s));
      x4 = p5->f3;
      ;
    }
  }
  ;
  ;
  return (8 < 7) + 8;
}
int main()
{
  int x6 = 292;
  struct s *p7 = (struct s *) malloc(4 * sizeof(struct s));
  if ((((x6)) + (-926)))
  {
    {
      int i8;
      forall (i8 = 0; i8 < 3; i8++)
        f1(NULL);
    }
    if (p7[0].f1)
    {
      int x9 = ((x6)) || ((x6));
      int x10 = (x6 * x6) << 5;
      p7[2] = p7[2];
      f1(NULL);
    }
  }
  f1(NULL);
  f1(NULL);
  if ((((x6)) && (x6 >> 1)))
  {
    p7[1] = *p7;
    x6 = (x6);
    p7[3].f1 = p7;
  }
  return 995;
}