#include <stdio.h>
struct s { int v; int f0[1]; };
int f1(int a1, int a2, int a3)
{
  printf("\n");
  ;
  return (a3 / 7) - ((a2));
}
int f2(struct s *a4, int a5, int *a6)
{
  int x7 = a5;
  int *p8 = (int *) malloc(4 * sizeof(int));
  p8[0] = (a5 <= a5) * ((a5));
  {
    int x9 = ((9)) != (a5 | x7);
    {
      int i10;
      for (i10 = 0; i10 < 1; i10++)
      {
        int *p11 = (int *) malloc(3 * sizeof(int));
        int x12 = i10;
        printf("\t");
        x12++;
      }
    }
  }
  {
    int i13;
    for (i13 = 0; i13 < 4; i13++)
    {
      int x14 = (1 + i13) ^ ((717));
      int x15;
      x14 = a5;
      {
        int i16;
        for (i16 = 0; i16 < 3; i16++)
        {
          int x17 = (a5 - 1) / 2;
          printf(";");
        }
      }
      if ((a5 || ((4))))
      {
        int *p18 = (int *) malloc(3 * sizeof(int));
        a5 = (p8 && a4) - x7;
        printf("%ld %ld %ld\n", x14, i13, x14);
      }
    }
  }
  return a5 + a5;
}
int f3(int a19, int a20)
{
  int x21 = 90 > a20;
  printf("%ld %ld %ld;", a19, x21, x21);
  {
    struct s *p22 = (struct s *) malloc(4 * sizeof(struct s));
    int *p23 = (int *) malloc(3 * sizeof(int));
    f2(p22, a19 / 5, p23);
    x21++;
  }
  x21 = f1(-9, !a19, a19);
  {
    int i24;
    for (i24 = 0; i24 < 4; i24++)
    {
      int *p25 = (int *) malloc(4 * sizeof(int));
      f2(NULL, 0 & i24, p25);
      printf("%ld %ld\n", x21, x21);
      f2(NULL, p25[3], p25);
    }
  }
  return ((a19)) >> 4;
}
int f4(int a26, int a27)
{
  int x28 = ~((a27));
  ;
  {
    int *p29 = (int *) malloc(3 * sizeof(int));
    *p29 = a26;
    ;
  }
  return (9 <= a26) - ((a26));
}
int main()
{
  struct s *p30 = (struct s *) malloc(4 * sizeof(struct s));
  struct s *p31 = (struct s *) malloc(1 * sizeof(struct s));
  p30->v = (9 * 1) >= (2 * 656);
  if ((-((1))))
  {
    int x32 = -(9 ^ 7);
    printf("%ld %ld %ld%%", x32, x32, x32);
  }
  p30[2] = p31[0];
  printf("\n");
  return (2 >> 3) >> 9;
}
