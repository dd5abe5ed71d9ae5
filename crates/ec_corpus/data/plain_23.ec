#include <stdio.h>
struct s { int v; };
struct tree { int f0; int *f2; int v; int f1[1]; };
struct box { int *f1; struct box *f0; int v; };
void f1()
{
  int x1;
  int *p2 = (int *) malloc(2 * sizeof(int));
  if (x1) return;
  if ((x1 && x1)) return;
  x1++;
  ;
  ;
}
int f2(int a3, struct tree *a4, struct box *a5)
{
  f1();
  f1();
  printf("%ld %ld %ld\n", a3, a3, a3);
  return ((a3)) != (7 > 3);
}
struct tree *f3()
{
  int *p6 = (int *) malloc(3 * sizeof(int));
  struct box *p7 = (struct box *) malloc(1 * sizeof(struct box));
  ;
  f1();
  f1();
  return NULL;
}
void f4(struct tree *a8)
{
  int x9 = 2;
  f3();
  printf("%ld %ld\n", x9, x9);
}
int main()
{
  int x10;
  int *p11 = (int *) malloc(2 * sizeof(int));
  {
    int i12;
    for (i12 = 0; i12 < 1; i12++)
    {
      struct s *p13 = (struct s *) malloc(2 * sizeof(struct s));
      int x14 = p13 == NULL;
      printf("%ld %ld %ld%%", i12, i12, i12);
      printf("%ld\t", i12);
      if (x14)
      {
        p13[1] = *p13;
        x10 = (i12 * i12);
      }
      else
      {
        int *p15 = (int *) malloc(1 * sizeof(int));
        printf("%ld %ld%%", x10, x10);
      }
    }
  }
  x10 = (x10 << 4) != (x10 % 9);
  x10++;
  return ((920));
}