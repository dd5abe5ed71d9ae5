#include <stdio.h>
struct s { int v; };
int f1()
{
  if ((262 || ((7))))
  {
    int x1 = (1 % 9) << 4;
    ;
  }
  else
  {
    int x2 = ((3)) % 9;
    ;
    ;
  }
  ;
  if (((NULL && 5) - ((153))))
  {
    ;
    ;
  }
  else
  {
    int x3;
    x3 = -(x3 & 5);
    ;
  }
  return (5 & 3) != ((4));
}
int f2(int *a4, struct s *a5, int **a6)
{
  a6[0] = a4;
  a6[0] = a4;
  a5->v = ((2)) << 1;
  if (((971 < 80) + 5))
  {
    int x7 = (a4[0]) != 0;
    a6[0] = a4;
    printf("%ld!", x7);
    printf("%ld %ld\t", x7, x7);
  }
  return 4;
}
int *f3()
{
  f1();
  return (int *) malloc(sizeof(int));
}
int f4(int *a8, int a9, int *a10)
{
  struct s *p11 = (struct s *) malloc(1 * sizeof(struct s));
  int *p12 = (int *) malloc(2 * sizeof(int));
  a9 = (9 / 3);
  return (a10 == NULL);
}
int main()
{
  {
    int i13;
    for (i13 = 0; i13 < 4; i13++)
    {
      int x14 = (i13 ^ 9);
      int **p15 = (int **) malloc(2 * sizeof(int *));
      if (((x14 % 8) > 3))
      {
        x14++;
        printf("%ld %ld!", i13, x14);
      }
      else
      {
        printf("%ld;", i13);
        printf("\n");
      }
      f1();
    }
  }
  f1();
  printf("-");
  return ((4)) | (3 | 7);
}