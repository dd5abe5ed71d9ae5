#include <stdio.h>
struct s { struct s *f3; int f0[1]; int v; int f1; struct box *f2; };
struct tree { int v; struct s *f0; };
struct box { int v; struct s *f0; struct tree *f1; };
int f1(struct s *a1, int a2)
{
  struct s *p3 = (struct s *) malloc(3 * sizeof(struct s));
  int x4 = a2;
  ;
  ;
  (*p3).f2 = NULL;
  return 7 < ((a2));
}
int f2(int a5)
{
  struct tree *p6 = (struct tree *) malloc(1 * sizeof(struct tree));
  if (((7 % 1) && (a5 - 8)))
  {
    struct tree *p7 = (struct tree *) malloc(2 * sizeof(struct tree));
    printf("%ld %ld;", a5, a5);
    f1(NULL, a5);
  }
  else
  {
    printf("%ld %ld %ld\n", a5, a5, a5);
  }
  a5++;
  f1(NULL, a5 > a5);
  f1(p6->f0, (*p6).v);
  if ((((a5)) && (a5 >> 9)))
  {
    struct box *p8 = (struct box *) malloc(1 * sizeof(struct box));
    int *p9 = (int *) malloc(4 * sizeof(int));
    printf("%ld %ld\n", a5, a5);
  }
  else
  {
    int x10 = (7 + a5);
    x10++;
    printf("%ld%%", a5);
  }
  return (!a5) | (5 <= 463);
}
struct s *f3(struct s *a11, int a12)
{
  int x13;
  int x14 = x13 == ((a12));
  printf("%ld%%", x13);
  printf("%%");
  f1(a11, a12 | x14);
  return a11;
}
void f4()
{
  struct tree *p15 = (struct tree *) malloc(2 * sizeof(struct tree));
  f1(NULL, 5 >> 2);
  p15[1] = *p15;
  {
    int x16 = (p15 == NULL) >= 3;
    f1(NULL, (x16));
  }
}
int main()
{
  int x17 = (1 && 2);
  x17 = f2(x17 + x17);
  if (((!8) == ((x17))))
  {
    int x18;
    printf("\n");
  }
  return (2 ^ 0);
}
