#include <stdio.h>
struct s { struct box *f0; int f1[3]; int v; };
struct tree { int f1; int v; struct tree *f0; };
struct box { struct s *f1; int f3[4]; int f2[4]; int f0; int v; };
int f1(int *a1)
{
  int x2 = ((2));
  ;
  printf("\t");
  ;
  ;
  {
    int x3;
    int *p4 = (int *) malloc(2 * sizeof(int));
    ;
    printf(";");
  }
  return ((7)) >> 4;
}
int f2()
{
  printf("-");
  {
    {
      int i5;
      while (i5 < 3)
      {
        i5 = i5 + 1;
        {
          printf("\t");
          ;
        }
      }
    }
    printf("!");
  }
  return (0 - 1) >= 2;
}
int main()
{
  int *p6 = (int *) malloc(1 * sizeof(int));
  if (p6)
  {
    {
      int i7;
      while (i7 < 1)
      {
        i7 = i7 + 1;
        {
          int x8;
          int x9;
          printf("%ld %ld\n", i7, x8);
        }
      }
    }
    if (((9)))
    {
      struct s *p10 = (struct s *) malloc(4 * sizeof(struct s));
      int x11 = (7 - 1);
      printf("%ld %ld!", x11, x11);
      x11++;
      f1(p6);
    }
    else
    {
      printf("-");
    }
  }
  else
  {
    int *p12 = (int *) malloc(1 * sizeof(int));
    struct tree *p13 = (struct tree *) malloc(3 * sizeof(struct tree));
    p13->f0 = p13;
  }
  return (861 && 3) && (9 < 6);
}
