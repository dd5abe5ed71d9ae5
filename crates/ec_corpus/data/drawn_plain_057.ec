#include <stdio.h>
#include <stdlib.h>
struct s { int f3[1]; int f0; int v; int f2; int f1[2]; };
struct tree { struct box *f0; int f1[1]; int f2; int v; };
struct box { int *f0; struct box *f1; int v; };
int *f1(int a1, int a2, int a3)
{
  int x4 = (8 - a3);
  ;
  return (int *) malloc(2 * sizeof(int));
}
struct box *f2()
{
  shared int h5;
  addto(&h5, 9);
  {
    int i6;
    forall (i6 = 0; i6 < 1; i6++)
      writeto(&h5, NULL == NULL);
  }
  return (struct box *) malloc(sizeof(struct box));
}
int main(int n7)
{
  shared int h8;
  printf("%ld!", valueof(&h8));
  {^
    {
      int *p9 = (int *) malloc(2 * sizeof(int));
      ;
      {
        int i10;
        for (i10 = 0; i10 < 1; i10++)
        {
          int x11 = p9[i10];
          f1(!1, x11 % 9, 5 == 5);
        }
      }
    }
  ^}
  return (3 + n7);
}
