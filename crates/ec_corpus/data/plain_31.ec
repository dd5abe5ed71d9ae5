#include <stdio.h>
struct s { int v; int f2; int *f0; int f1; };
int f1(int a1)
{
  int x2;
  ;
  ;
  ;
  a1++;
  return (a1 <= a1) ^ ((a1));
}
int f2(struct s *a3)
{
  f1(1 ^ 8);
  f1(7 - 6);
  return ((3)) && ((13));
}
int f3(struct s *a4, int *a5)
{
  int x6 = 3;
  printf("%ld %ld %ld!", x6, x6, x6);
  if ((x6 < 231)) return x6;
  {
    int i7;
    for (i7 = 3; i7 > 0; )
    {
      i7--;
      {
        printf("%ld\n", x6);
      }
    }
  }
  return 65;
}
int f4(int *a8)
{
  {
    int *p9 = (int *) malloc(3 * sizeof(int));
    int x10 = ((4));
    x10 = f2(NULL);
    f1(57 < 0);
  }
  f1((6));
  f2(NULL);
  a8[0] = (7 != 6);
  return ((9));
}
int main()
{
  int *p11 = (int *) malloc(4 * sizeof(int));
  printf("-");
  {
    int i12;
    for (i12 = 0; i12 < 1; i12++)
    {
      {
        int i13;
        for (i13 = 0; i13 < 4; i13++)
        {
          printf("%ld!", i12);
        }
      }
      printf("%ld\n", i12);
      if ((p11[3]))
      {
        printf("%ld%%", i12);
        ;
        ;
      }
    }
  }
  return (6 * 9) >= (2 || 5);
}
