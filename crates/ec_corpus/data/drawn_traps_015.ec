#include <stdio.h>
struct s { int v; struct s *f1; int f2; int f0[1]; };
int f1(int a1, int a2)
{
  if (((1 + a2)))
  {
    {
      shared int h3;
      addto(&h3, valueof(&h3));
      a2 = ((a1)) >> (valueof(&h3));
      ;
    }
    if (((NULL == NULL) && malloc(sizeof(struct s))))
    {
      int *p4;
      ;
      ;
    }
  }
  else
  {
    {
      int i5;
      forall (i5 = 0; i5 < 1; i5++)
        ;
    }
    {
      int i6;
      forall (i6 = 0; i6 < 2; i6++)
      {
        struct s *p7 = (struct s *) malloc(3 * sizeof(struct s));
        ;
        ;
      }
    }
  }
  {^
    ;
    ;
  ^}
  return (NULL != NULL) + ((3));
}
int f2(local struct s *a8, int a9, int *a10)
{
  int x11 = a9;
  {^
    ;
    f1(x11, f1(742, a9))@NODE(a9 + x11);
    f1(x11 == a9, 5 >= x11)@NODE(a8->v);
  ^}
  {
    shared int h12;
    writeto(&h12, ((*a8).f0[0]));
  }
  {
    int i13;
    forall (i13 = 0; i13 < 0; i13++)
      f1(f1(4611686018427387904, 9), -i13)@HOME;
  }
  {
    struct s *p14 = malloc(2 * sizeof(struct s));
    shared int h15;
    {^
      addto(&h15, (-156) * (-a9));
      a10 = malloc(sizeof(int));
    ^}
  }
  return -(f1(a9, a9));
}
int main(int n16, int n17)
{
  n17++;
  n17++;
  return n17;
}
