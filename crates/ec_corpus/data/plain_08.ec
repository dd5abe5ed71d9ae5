#include <stdio.h>
void f1()
{
  int x1 = NULL == NULL;
  if (((5)))
  {
    printf("%ld %ld!", x1, x1);
  }
  x1++;
}
int main()
{
  int x2 = ((5)) != (NULL || 3);
  {
    int i3;
    for (i3 = 3; i3 > 0; )
    {
      i3--;
      {
        int x4;
        f1();
      }
    }
  }
  if (((NULL == NULL) | (NULL == NULL)))
  {
    {
      int i5;
      while (i5 < 3)
      {
        i5 = i5 + 1;
        {
          int x6 = ((i5));
          f1();
        }
      }
    }
    if (((0 * x2)))
    {
      int x7 = ~((6));
      printf("%ld\t", x2);
      printf(";");
    }
    else
    {
      int x8;
      x8++;
      printf("\t");
    }
  }
  {
    printf("%ld %ld %ld\n", x2, x2, x2);
    printf("%ld %ld %ld\n", x2, x2, x2);
    if ((int *) malloc(2 * 2 * sizeof(int)))
    {
      printf("%ld %ld\n", x2, x2);
      f1();
    }
    else
    {
      int *p9 = (int *) malloc(4 * sizeof(int));
      int *p10 = (int *) malloc(4 * sizeof(int));
      printf("%ld %ld\n", x2, x2);
      printf("%ld %ld %ld;", x2, x2, x2);
    }
  }
  return (1);
}