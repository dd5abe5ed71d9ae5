#include <stdio.h>
struct s { int v; };
int f1(int a1, int **a2)
{
  if (((a1 - a1) & ((a1))))
  {
    struct s *p3 = (struct s *) malloc(2 * sizeof(struct s));
    {
      printf("\n");
      printf("%ld!", a1);
      printf("%ld %ld %ld%%", a1, a1, a1);
    }
    if (((4 * a1) * (460 - a1)))
    {
      printf("%ld %ld %ld\n", a1, a1, a1);
      a1++;
      printf("%%");
    }
  }
  a1++;
  ;
  return (a1);
}
struct s *f2(int a4)
{
  struct s *p5 = (struct s *) malloc(1 * sizeof(struct s));
  int x6 = ~(a4 & a4);
  {
    int i7;
    for (i7 = 0; i7 < 4; i7++)
    {
      int x8 = 6;
      ;
    }
  }
  ;
  ;
  {
    int i9;
    for (i9 = 0; i9 < 3; i9++)
    {
      int x10;
      x6--;
      ;
      x10++;
    }
  }
  return (struct s *) malloc(sizeof(struct s));
}
int f3(int a11, int a12)
{
  int x13 = (a12 && a11);
  int *p14 = (int *) malloc(4 * sizeof(int));
  f2(!8);
  a12 = (8 - a12) - (a12 >> 4);
  a11++;
  *p14 = (x13 == a11) > ((a12));
  {
    int i15;
    for (i15 = 0; i15 < 2; i15++)
    {
      struct s *p16 = (struct s *) malloc(2 * sizeof(struct s));
      p16[i15].v = (p16 || 0);
      printf("%ld %ld!", a11, a12);
      {
        int i17;
        for (i17 = 0; i17 < 4; i17++)
        {
          ;
        }
      }
    }
  }
  return (4);
}
int f4(int a18, int a19)
{
  if (7)
  {
    int x20 = (!a19) < (NULL == NULL);
    a18 = (a18);
    {
      int i21;
      for (i21 = 0; i21 < 1; i21++)
      {
        printf("%ld %ld %ld\n", a18, x20, i21);
        printf("%ld %ld %ld;", a19, a19, x20);
        f2(i21 & x20);
      }
    }
  }
  f3(0, (a19));
  {
    int i22;
    for (i22 = 1; i22 > 0; )
    {
      i22--;
      {
        int x23 = (i22 && i22) == (a19 + a19);
        int x24 = -(NULL != NULL);
        x23++;
        f1(~a19, NULL);
      }
    }
  }
  printf("%ld\t", a19);
  if ((NULL != NULL))
  {
    int x25 = 593 - (a18 < 7);
    f3(x25, a18);
  }
  else
  {
    printf("%ld %ld;", a18, a18);
    a19 = (a19 != a19) == (a18 - a18);
  }
  return a19 >> 7;
}
int main()
{
  {
    int i26;
    for (i26 = 0; i26 < 4; i26++)
    {
      int x27 = (!1) || NULL;
      struct s *p28 = (struct s *) malloc(3 * sizeof(struct s));
      ;
      f3(i26 + 5, x27);
    }
  }
  f2(0 | 5);
  return -0;
}