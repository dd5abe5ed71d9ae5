#include <stdio.h>
int f1(int a1)
{
  ;
  return a1;
}
int main()
{
  int x2 = 7;
  if (((x2 < x2) == (x2 - x2)))
  {
    int *p3 = (int *) malloc(2 * sizeof(int));
    if ((((312)) != (*p3)))
    {
      int *p4 = (int *) malloc(1 * sizeof(int));
      f1(8 != x2);
      ;
      printf("%ld %ld %ld%%", x2, x2, x2);
    }
    {
      int i5;
      for (i5 = 0; i5 < 3; i5++)
      {
        printf("%ld\n", x2);
        printf("%ld %ld\n", i5, x2);
      }
    }
    {
      printf("%ld!", x2);
    }
  }
  else
  {
    f1(x2);
  }
  if (x2)
  {
    int x6 = x2;
    x6++;
    printf("%ld!", x6);
    f1(9);
  }
  else
  {
    int x7;
    x7 = x7;
    printf("%ld %ld!", x2, x2);
  }
  printf("%ld\n", x2);
  return (3 <= 4);
}