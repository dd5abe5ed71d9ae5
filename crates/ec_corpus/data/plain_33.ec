#include <stdio.h>
struct s { int f0; int v; };
struct tree { int f0[1]; int v; struct box *f1; struct box *f2; };
struct box { int v; int f0; };
int f1(struct box *a1)
{
  struct s *p2 = (struct s *) malloc(4 * sizeof(struct s));
  p2[0].f0 = ((6)) || a1;
  printf("-");
  {
    printf("-");
    ;
  }
  ;
  printf("\t");
  return 195;
}
void f2(int a3, int a4, int a5)
{
  int x6 = ((a4));
  int x7;
  ;
  {
    int i8;
    for (i8 = 0; i8 < 2; i8++)
    {
      a4 = (!1) / 5;
      x6++;
      ;
    }
  }
}
struct s *f3(int a9, int a10, int a11)
{
  struct box *p12 = (struct box *) malloc(3 * sizeof(struct box));
  int x13;
  p12[0].f0 = ((x13)) + (5 + a11);
  {
    int i14;
    for (i14 = 0; i14 < 1; i14++)
    {
      int x15 = (a11);
      printf("%ld %ld\t", x15, x13);
    }
  }
  return (struct s *) malloc(3 * 2 * sizeof(struct s));
}
int f4(int *a16, struct s *a17, int *a18)
{
  int x19 = (5 <= 3) && 478;
  struct box *p20 = (struct box *) malloc(4 * sizeof(struct box));
  a16[0] = (~x19);
  if (x19) return a16[0];
  if (((~7)))
  {
    x19++;
  }
  printf("%ld\n", x19);
  return 3;
}
int main()
{
  int x21;
  int x22 = x21;
  ;
  printf("%ld %ld %ld%%", x22, x22, x21);
  x21 = (~x22) | 0;
  f3(353 || x22, x22, 7 / 7);
  return ((8)) * ((1));
}