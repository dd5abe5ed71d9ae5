#include <stdio.h>
struct s { int f0[4]; int f1; struct s *f3; int v; int *f2; };
int f1(int a1, int a2)
{
  a2++;
  ;
  {
    int i3;
    for (i3 = 4; i3 > 0; )
    {
      i3--;
      {
        printf("%ld %ld %ld;", i3, i3, a1);
      }
    }
  }
  return (a2 | a2) % 8;
}
int main()
{
  int x4;
  {
    int i5;
    for (i5 = 0; i5 < 3; i5++)
    {
      int x6;
      int *p7 = (int *) malloc(3 * sizeof(int));
      f1(i5 << 2, p7[i5]);
      printf(";");
      f1(x4, 8);
    }
  }
  return (!8) <= (8 - 5);
}