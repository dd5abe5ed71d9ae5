#include <stdio.h>
struct s { int f1; int f0; int f2[3]; int v; };
void f1(int *a1, struct s *a2)
{
  ;
  if (((7 & 9) << 3))
  {
    int x3;
    int x4;
    x3++;
    {
      int i5;
      for (i5 = 0; i5 < 4; i5++)
      {
        struct s *p6 = (struct s *) malloc(3 * sizeof(struct s));
        printf("\n");
        ;
        ;
      }
    }
    printf("%ld\n", x3);
  }
  ;
  ;
  if (265)
  {
    if (721)
    {
      int *p7 = (int *) malloc(1 * sizeof(int));
      int x8;
      ;
      x8++;
      printf("%ld %ld %ld\n", x8, x8, x8);
    }
  }
}
int f2(int a9)
{
  struct s *p10 = (struct s *) malloc(1 * sizeof(struct s));
  int x11 = a9;
  a9++;
  {
    int i12;
    for (i12 = 0; i12 < 3; i12++)
    {
      ;
    }
  }
  ;
  return ~(-a9);
}
int f3(int *a13)
{
  struct s *p14 = (struct s *) malloc(3 * sizeof(struct s));
  f2((924));
  f2(3);
  f2(214);
  return ~(8 - 7);
}
int main()
{
  struct s *p15 = (struct s *) malloc(2 * sizeof(struct s));
  int **p16 = (int **) malloc(4 * sizeof(int *));
  f2(4 | 3);
  printf("!");
  if (2)
  {
    int *p17 = (int *) malloc(3 * sizeof(int));
    int x18 = (8 >> 7);
    p15[1] = *p15;
    if (p16[0])
    {
      int x19;
      int *p20 = (int *) malloc(3 * sizeof(int));
      printf("%ld;", x19);
    }
    else
    {
      printf("%ld %ld %ld\t", x18, x18, x18);
      printf("%ld%%", x18);
    }
    printf("%ld %ld;", x18, x18);
  }
  return (5 ^ 0) >= (24 << 1);
}
