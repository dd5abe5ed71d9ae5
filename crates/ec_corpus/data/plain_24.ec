#include <stdio.h>
struct s { int f0; int f1; int v; struct s *f2; struct tree *f3; };
struct tree { int *f1; int f0; int v; };
int f1(int a1, int a2)
{
  struct tree *p3 = (struct tree *) malloc(3 * sizeof(struct tree));
  if ((struct tree *) malloc(sizeof(struct tree)))
  {
    int x4 = (p3->f1 || a2) - (p3 != NULL);
    x4--;
    {
      printf("%ld%%", a2);
      printf("%ld\n", x4);
      p3[0] = *p3;
    }
    if (((7 || x4) < ((a1))))
    {
      a1 = ~(p3 != p3);
      printf("%ld %ld\t", a1, x4);
    }
    else
    {
      printf("%ld %ld %ld!", x4, a1, a2);
      printf("%ld %ld %ld%%", a2, a1, a2);
    }
  }
  if ((p3[2].f0))
  {
    printf("%ld %ld %ld\t", a2, a1, a2);
    printf("%ld\n", a2);
    ;
  }
  return (-a2);
}
int f2(int a5)
{
  int x6;
  ;
  {
    int x7 = !((x6));
    struct s *p8 = (struct s *) malloc(4 * sizeof(struct s));
    (*p8).f2 = p8;
  }
  ;
  return a5 - ((a5));
}
int f3(int *a9, int a10)
{
  int x11 = (a10 - 403) % 7;
  a10 = 9 == (~0);
  f2(467 * x11);
  f2(a9 != a9);
  f2(a10 / 4);
  return (7 != 7);
}
int *f4()
{
  f2(1 / 9);
  ;
  return (int *) malloc(3 * 3 * sizeof(int));
}
int main()
{
  int x12 = 8 || NULL;
  x12++;
  if (((x12 * x12) * (706 - x12)))
  {
    printf("%ld %ld!", x12, x12);
    {
      x12++;
      printf("%ld!", x12);
      if ((x12 >> 9)) return (x12);
    }
    printf("%ld\t", x12);
  }
  x12 = 8;
  return (5 || NULL) >= ((2));
}
