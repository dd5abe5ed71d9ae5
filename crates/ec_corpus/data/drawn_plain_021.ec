#include <stdio.h>
#include <stdlib.h>
struct s { int f0; int f3[4]; int v; int f1; int f2; };
struct tree { int f1[1]; int f0; int f2; int v; };
struct box { int v; int f1[4]; int f0[2]; };
int *f1()
{
  int x1;
  x1++;
  ;
  return (int *) malloc(2 * 1 * sizeof(int));
}
int f2(int *a2)
{
  ;
  printf("%ld\n", 1);
  ;
  f1();
  return a2 && (0 * 3);
}
int *f3(int a3, shared int *a4, int a5)
{
  int x6;
  printf("!");
  {
    int i7;
    forall (i7 = 0; i7 < 1; i7++)
    {
      int x8;
      shared int h9;
      {
        int i10;
        forall (i10 = 0; i10 < 0; i10++)
        {
          int x11;
          addto(&h9, x11);
        }
      }
      if ((!x6))
      {
        shared int h12;
        addto(&h12, (NULL == NULL));
        addto(a4, ((x8)) - (3 + x6));
        addto(a4, (x8 << 4) & (NULL && x8));
      }
    }
  }
  {
    int i13;
    for (i13 = 0; i13 < 1; i13++)
    {
      local int *l14 = (int *) malloc(4 * sizeof(int));
      int *p15 = (int *) malloc(1 * sizeof(int));
      printf("%%");
    }
  }
  f2(NULL);
  return (int *) malloc(2 * sizeof(int));
}
int f4(int a16)
{
  shared int h17;
  {
    local struct box *l18 = (struct box *) malloc(2 * sizeof(struct box));
    {^
      writeto(&h17, l18 == l18);
      addto(&h17, (l18 || a16) % 5);
    ^}
  }
  if (((a16 | a16)))
  {
    if (((valueof(&h17)) * (4 & 3)))
    {
      shared int h19;
      a16++;
      addto(&h17, valueof(&h17));
    }
    a16++;
  }
  return ((a16)) && (-a16);
}
int main(int n20)
{
  int x21 = (!9);
  f1();
  return ~((n20));
}
