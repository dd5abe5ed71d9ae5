#include <stdio.h>
struct s { int v; int f0[2]; };
int f1()
{
  ;
  return (-3) / (NULL != NULL);
}
int f2(int *a1, int *a2, local struct s *a3)
{
  shared int h4;
  printf("%d %d%%", ((*a3).f0[0]) || (4611686018427387904 * 4), ~(valueof(&h4)));
  (*a3).v = f1();
  addto(&h4, f1());
  return 5 && 5;
}
int main(int n5, int n6)
{
  int x7 = n5 && n6;
  f1()@ANYWHERE;
  {^
    f1();
    {
      f1()@ANYWHERE;
      f1();
    }
  ^}
  n6++;
  return f2(malloc(sizeof(int)), malloc(3 * sizeof(int)), (struct s *) malloc(sizeof(struct s)));
}