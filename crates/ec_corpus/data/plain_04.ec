#include <stdio.h>
struct s { struct tree *f2; struct s *f1; int v; int f0; };
struct tree { int *f0; int v; };
int f1(int a1, struct tree *a2, int a3)
{
  int x4 = (a2 || a2) || (a1 << 7);
  ;
  return (a3 | a3) == (9 && a1);
}
int main()
{
  printf("!");
  if ((int *) malloc(sizeof(int)))
  {
    int *p5 = (int *) malloc(3 * sizeof(int));
    int x6;
    printf("%%");
    printf("%ld %ld %ld%%", x6, x6, x6);
  }
  {
    struct tree *p7 = (struct tree *) malloc(1 * sizeof(struct tree));
    int x8;
    f1(x8 != x8, p7, p7 == NULL);
    if ((((x8)) >= (~x8)))
    {
      int x9 = ~(8 - x8);
      int x10 = (0);
      printf("%ld %ld %ld!", x9, x10, x9);
      printf("%ld %ld\n", x9, x8);
      printf("%ld %ld %ld%%", x10, x10, x8);
    }
    p7[0] = *p7;
  }
  return !7;
}
