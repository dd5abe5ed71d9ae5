#include <stdio.h>
struct s { int v; int f0; };
int f1(struct s *a1, struct s *a2, int a3)
{
  ;
  if ((struct s *) malloc(2 * sizeof(struct s)))
  {
    int **p4 = (int **) malloc(2 * sizeof(int *));
    int x5 = (a3 + a3) < a3;
    ;
    {
      int i6;
      for (i6 = 0; i6 < 4; i6++)
      {
        int *p7 = (int *) malloc(3 * sizeof(int));
        struct s *p8 = (struct s *) malloc(4 * sizeof(struct s));
        ;
        if ((x5 >= i6)) return (a2 == NULL) && 3;
        printf("!");
      }
    }
  }
  else
  {
    int x9;
    a1->v = ((x9)) > ((5));
  }
  return (4 * a3) != (a3 > a3);
}
int f2(int a10, int a11)
{
  int *p12 = (int *) malloc(2 * sizeof(int));
  printf(";");
  if ((((a11))))
  {
    f1(NULL, NULL, a11);
    *p12 = (!3) - ((a10));
    {
      int i13;
      while (i13 < 3)
      {
        i13 = i13 + 1;
        {
          printf("%ld %ld%%", a11, a10);
        }
      }
    }
  }
  f1(NULL, NULL, (a11));
  printf("\n");
  printf("%ld %ld;", a10, a11);
  return (6 <= a11) + ((a11));
}
int main()
{
  int x14;
  printf(";");
  x14 = (7 * 5) | 962;
  x14++;
  {
    int i15;
    for (i15 = 0; i15 < 2; i15++)
    {
      int x16 = (x14 <= x14) || i15;
      x16++;
    }
  }
  printf("%ld %ld %ld!", x14, x14, x14);
  return (4 & 8);
}
