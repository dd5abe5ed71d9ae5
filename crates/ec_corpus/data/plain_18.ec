#include <stdio.h>
struct s { int v; struct s *f0; };
int f1(int a1, int a2)
{
  int x3 = a1;
  struct s *p4 = (struct s *) malloc(2 * sizeof(struct s));
  a2 = (1 < a1) <= ((x3));
  return (a1 != a1) < ((a2));
}
int f2(int a5, int a6, int a7)
{
  {
    int i8;
    for (i8 = 0; i8 < 1; i8++)
    {
      struct s *p9 = (struct s *) malloc(3 * sizeof(struct s));
      a7 = (-a5);
    }
  }
  return ~(a6 && NULL);
}
int f3(int *a10, struct s *a11)
{
  int x12 = (7 - 4);
  int x13;
  if (((x12 + 7) >= (x13 || x12)))
  {
    {
      struct s *p14 = (struct s *) malloc(3 * sizeof(struct s));
      f2(x13 + 176, !x12, a11 == p14);
    }
    if (a11)
    {
      int x15;
      x15 = x13;
      a11[0] = a11[0];
    }
    a11->f0 = a11;
  }
  f1(-x13, (x13));
  return (2 || 8) != (5 || 553);
}
int main()
{
  int x16 = !7;
  {
    int i17;
    while (i17 < 4)
    {
      i17 = i17 + 1;
      {
        struct s *p18 = (struct s *) malloc(4 * sizeof(struct s));
        f1(0 / 1, 880 & i17);
        printf("%ld %ld;", x16, i17);
      }
    }
  }
  x16 = !x16;
  printf("%ld\t", x16);
  {
    struct s *p19 = (struct s *) malloc(1 * sizeof(struct s));
    int x20;
    ;
  }
  x16--;
  return 8;
}