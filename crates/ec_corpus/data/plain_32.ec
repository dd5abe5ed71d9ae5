#include <stdio.h>
struct s { int *f1; struct s *f0; int f2; int v; };
int f1()
{
  struct s *p1 = (struct s *) malloc(3 * sizeof(struct s));
  ;
  ;
  return (5 != 6);
}
int main()
{
  {
    int i2;
    for (i2 = 0; i2 < 3; i2++)
    {
      struct s *p3 = (struct s *) malloc(4 * sizeof(struct s));
      printf("%ld %ld\n", i2, i2);
    }
  }
  ;
  printf("-");
  f1();
  printf("-");
  return (4);
}
