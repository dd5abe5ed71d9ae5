#include <stdio.h>
struct s { struct box *f0; int f2; int v; int f1[2]; };
struct tree { int v; int f0[3]; };
struct box { int v; struct s *f0; };
int f1()
{
  printf("-");
  return NULL && (491 != 7);
}
int f2()
{
  int x1;
  int *p2 = (int *) malloc(4 * sizeof(int));
  {
    int i3;
    for (i3 = 0; i3 < 1; i3++)
    {
      ;
      x1++;
      {
        int i4;
        for (i4 = 0; i4 < 1; i4++)
        {
          struct tree *p5 = (struct tree *) malloc(4 * sizeof(struct tree));
          ;
        }
      }
    }
  }
  x1++;
  {
    int i6;
    for (i6 = 2; i6 > 0; )
    {
      i6--;
      {
        struct box *p7 = (struct box *) malloc(2 * sizeof(struct box));
        struct tree *p8 = (struct tree *) malloc(4 * sizeof(struct tree));
        ;
      }
    }
  }
  ;
  return 6;
}
int f3(struct box *a9, int a10)
{
  int x11;
  int x12;
  a10 = (a10 >> 6) * 3;
  return ((a10));
}
struct s *f4(int a13, int a14, struct tree *a15)
{
  printf("%ld\t", a14);
  a13 = -((7));
  f3(NULL, (a13));
  return (struct s *) malloc(sizeof(struct s));
}
int main()
{
  struct s *p16 = (struct s *) malloc(2 * sizeof(struct s));
  {
    int i17;
    for (i17 = 4; i17 > 0; )
    {
      i17--;
      {
        printf("%ld %ld %ld!", i17, i17, i17);
      }
    }
  }
  return 4 >= 7;
}
