#include <stdio.h>
struct s { int v; int f0; struct s *f1; int f2; };
int *f1(int a1)
{
  int x2 = (4 / 2);
  {
    struct s *p3 = (struct s *) malloc(3 * sizeof(struct s));
    int x4 = (p3->f0) << 8;
    printf("%ld\n", x4);
  }
  printf("%ld%%", a1);
  x2++;
  printf("%ld %ld %ld;", x2, a1, x2);
  return (int *) malloc(3 * 2 * sizeof(int));
}
int f2(struct s *a5, struct s *a6, int a7)
{
  int x8 = a7;
  if (x8)
  {
    ;
  }
  else
  {
    a5[0] = a6[0];
    a6[0].f1 = a6;
  }
  ;
  return a5->f0;
}
int main()
{
  f1(9);
  if (((7)))
  {
    printf("-");
    printf("-");
    printf("-");
  }
  else
  {
    int x9 = 9;
    f2(NULL, NULL, NULL && 9);
  }
  printf("-");
  return (NULL != NULL) * (~2);
}
