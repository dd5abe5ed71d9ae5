#include <stdio.h>
int *f1(int a1, int a2)
{
  int x3 = (a2 - a2) || NULL;
  int *p4 = (int *) malloc(2 * sizeof(int));
  ;
  ;
  ;
  if (((p4 || p4) * (3 / 8)))
  {
    int x5;
    x5 = x3;
    x3--;
    {
      int i6;
      while (i6 < 2)
      {
        i6 = i6 + 1;
        {
          int *p7 = (int *) malloc(4 * sizeof(int));
          int *p8 = (int *) malloc(1 * sizeof(int));
          ;
          ;
        }
      }
    }
  }
  ;
  return (int *) malloc(sizeof(int));
}
int *f2()
{
  f1(9 - 7, (1));
  ;
  if (((395 >> 4) | ((473))))
  {
    ;
    {
      int x9;
      int *p10 = (int *) malloc(4 * sizeof(int));
      f1(x9 - x9, x9 + x9);
    }
  }
  f1(~6, 936 >> 5);
  ;
  return NULL;
}
int f3(int a11, int a12)
{
  int *p13 = (int *) malloc(4 * sizeof(int));
  printf("%ld %ld %ld\n", a11, a11, a11);
  printf("%ld %ld\n", a11, a12);
  f2();
  return (0 + 622);
}
int main()
{
  int x14 = (5 >> 8) % 1;
  int x15;
  x14 = (~x15) << 5;
  printf("%ld %ld\n", x15, x15);
  f3(x14 / 2, 118);
  f2();
  return (6 || 6) || (NULL == NULL);
}
