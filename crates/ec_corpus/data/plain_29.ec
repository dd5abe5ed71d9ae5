#include <stdio.h>
struct s { int v; };
struct tree { int *f1; int f2[1]; int v; int *f0; int f3; };
struct box { int f2[1]; int f0; struct s *f1; int *f3; int v; };
void f1(int a1, int *a2, int a3)
{
  struct s *p4 = (struct s *) malloc(4 * sizeof(struct s));
  printf("%ld %ld%%", a1, a1);
  if (p4) return;
  ;
  ;
}
struct box *f2(int a5, int a6)
{
  int x7;
  ;
  ;
  ;
  return (struct box *) malloc(sizeof(struct box));
}
int f3(int **a8)
{
  int x9;
  {
    int i10;
    for (i10 = 0; i10 < 4; i10++)
    {
      f2(i10 >= 5, (1));
      f2(i10 >= x9, a8 || x9);
      x9++;
    }
  }
  f2(x9 & x9, (3));
  f2(9, (6));
  x9++;
  x9++;
  return (0 / 7);
}
int main()
{
  {
    {
      int x11 = ((5));
      printf(";");
      printf("%ld %ld\t", x11, x11);
      printf("%ld%%", x11);
    }
    printf("-");
  }
  if ((struct tree *) malloc(sizeof(struct tree)))
  {
    f3(NULL);
    {
      int *p12 = (int *) malloc(3 * sizeof(int));
      p12[2] = -(NULL != NULL);
    }
  }
  ;
  {
    int i13;
    while (i13 < 1)
    {
      i13 = i13 + 1;
      {
        if ((struct s *) malloc(sizeof(struct s)))
        {
          int x14 = (i13 % 5) / 6;
          int x15;
          f3(NULL);
          f2((510), (202));
          printf("!");
        }
      }
    }
  }
  f2((2), 0 * 332);
  return (!4) + 6;
}