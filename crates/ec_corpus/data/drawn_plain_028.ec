#include <stdio.h>
#include <stdlib.h>
struct s { int f0[3]; int f2[4]; struct s *f1; struct s *f3; int v; };
struct tree { int f0[1]; int v; };
int f1(int a1, int a2, shared int *a3)
{
  shared int h4;
  ;
  a2++;
  writeto(&h4, 4 + (a1 < a1));
  addto(a3, 6);
  if (847)
  {
    addto(&h4, (a2 || a1) && (a1 * 2));
  }
  else
  {
    ;
  }
  return (valueof(a3));
}
struct s *f2()
{
  ;
  ;
  return (struct s *) malloc(5 * sizeof(struct s));
}
int f3()
{
  f2();
  return ((1048576)) == ((314));
}
int main(int n5, int n6)
{
  {^
    f2();
    f2();
    ;
  ^}
  f2();
  {
    {
      int i7;
      for (i7 = 0; i7 < 1; i7++)
      {
        printf("%%");
        printf("%ld\n", n6);
      }
    }
  }
  return 1;
}
