#include <stdio.h>
#include <stdlib.h>
struct s { int f0; int v; };
int f1()
{
  shared int h1;
  local struct s *l2 = (struct s *) malloc(2 * sizeof(struct s));
  ;
  return 796;
}
int f2(int a3, int a4)
{
  int *p5 = (int *) malloc(2 * sizeof(int));
  int x6;
  x6++;
  return (a3 == a3) == ((a4));
}
int main()
{
  local int *l7 = (int *) malloc(4 * sizeof(int));
  struct s *p8 = (struct s *) malloc(1 * sizeof(struct s));
  f1();
  {
    {^
      f2((475), -2);
      f2(6 | 5, l7[1]);
      p8->v = *l7;
    ^}
    if (((-0)))
    {
      int x9 = ((7)) && ((*p8).v);
      shared int h10;
      printf("%ld\n", (l7[3]) + x9);
      f1();
      p8[0].f0 = p8[0].f0;
    }
    else
    {
      int x11 = (6 * 6) + (9 & 6);
      f2(x11 << 7, (x11));
      printf("%ld\n", !x11);
    }
    f2(9223372036854775807 != 6, (44));
  }
  return 5;
}
