#include <stdio.h>
struct s { int f1; int v; int f2[4]; struct s *f0; };
int f1()
{
  if ((((1)) % 6))
  {
    struct s *p1 = (struct s *) malloc(2 * sizeof(struct s));
    int x2 = (6 + 9) * (6 ^ 9);
    ;
  }
  printf("\n");
  {
    if ((-(9 % 9)))
    {
      ;
    }
    else
    {
      int x3;
      int **p4 = (int **) malloc(1 * sizeof(int *));
      printf("%ld%%", x3);
    }
    ;
  }
  ;
  {
    int i5;
    for (i5 = 4; i5 > 0; )
    {
      i5--;
      {
        ;
        printf("%ld %ld %ld%%", i5, i5, i5);
      }
    }
  }
  return 5;
}
int main()
{
  {
    int i6;
    while (i6 < 2)
    {
      i6 = i6 + 1;
      {
        printf("%ld %ld\n", i6, i6);
        printf("%ld\n", i6);
      }
    }
  }
  {
    int i7;
    for (i7 = 1; i7 > 0; )
    {
      i7--;
      {
        if ((struct s *) malloc(sizeof(struct s))) return i7;
        f1();
      }
    }
  }
  {
    int x8 = NULL && 6;
    printf("%ld %ld %ld\t", x8, x8, x8);
    f1();
    x8 = NULL != NULL;
  }
  return (6 + 0);
}
